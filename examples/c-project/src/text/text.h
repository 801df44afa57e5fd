#ifndef TEXT_H
#define TEXT_H

#include "tally.h"
#include "../options.h"

/* 1 where a byte ends a line, and 0 where it doesn't. */
int ends_line(char byte);

/* 1 where a word begins behind a byte, and 0 where none does. */
int begins_word(char before, char byte);

/* Writes what was counted. */
void print_tally(const struct tally *tally, const struct options *options);

#endif
