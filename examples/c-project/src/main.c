/* Counts the lines, words and bytes of its input: tally [-t] [COLOUR] */
#include <stdio.h>

#include "count/count.h"
#include "options.h"
#include "text/text.h"

int main(int count, char **words)
{
    struct options options;
    if (read_options(count, words, &options) != 0) {
        fprintf(stderr, "usage: tally [-t] [COLOUR]\n");
        return 2;
    }
    struct tally tally = count_text(stdin);
    print_tally(&tally, &options);
    return 0;
}
