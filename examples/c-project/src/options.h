#ifndef OPTIONS_H
#define OPTIONS_H

#include "../tables/colours.h"

/* What the words of the program ask for. */
struct options {
    enum colour colour;
    int total_only;
};

/* Reads the words. Gives 0, or 1 where one is unknown. */
int read_options(int count, char **words, struct options *options);

#endif
