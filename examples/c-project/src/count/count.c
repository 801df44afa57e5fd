#include "count.h"
#include "../text/text.h"

struct tally count_text(FILE *text)
{
    struct tally tally = {0, 0, 0};
    char before = ' ';
    for (int byte = getc(text); byte != EOF; byte = getc(text)) {
        tally.bytes += 1;
        tally.lines += ends_line((char)byte);
        tally.words += begins_word(before, (char)byte);
        before = (char)byte;
    }
    return tally;
}
