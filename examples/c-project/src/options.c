#include <string.h>

#include "options.h"

int read_options(int count, char **words, struct options *options)
{
    options->colour = COLOUR_plain;
    options->total_only = 0;
    for (int i = 1; i < count; i++) {
        if (strcmp(words[i], "-t") == 0) {
            options->total_only = 1;
        } else if (find_colour(words[i], &options->colour) != 0) {
            return 1;
        }
    }
    return 0;
}
