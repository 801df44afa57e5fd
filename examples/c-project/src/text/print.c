#include <stdio.h>

#include "text.h"
#include "../count/count.h"

void print_tally(const struct tally *tally, const struct options *options)
{
    int code = colour_code(options->colour);
    if (code != 0) {
        printf("\033[%dm", code);
    }
    if (options->total_only) {
        printf("%zu\n", total_of(tally));
    } else {
        printf("%zu %zu %zu\n", tally->lines, tally->words, tally->bytes);
    }
    if (code != 0) {
        printf("\033[0m");
    }
}
