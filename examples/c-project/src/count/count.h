#ifndef COUNT_H
#define COUNT_H

#include <stdio.h>

#include "tally.h"

/* Counts a text that is read to its end. */
struct tally count_text(FILE *text);

/* All that was counted, in one number. */
size_t total_of(const struct tally *tally);

#endif
