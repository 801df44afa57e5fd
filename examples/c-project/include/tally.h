#ifndef TALLY_H
#define TALLY_H

#include <stddef.h>

/* What was counted of a text. */
struct tally {
    size_t lines;
    size_t words;
    size_t bytes;
};

#endif
