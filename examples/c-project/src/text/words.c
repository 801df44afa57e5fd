#include <ctype.h>

#include "text.h"

int begins_word(char before, char byte)
{
    return isspace((unsigned char)before) && !isspace((unsigned char)byte);
}
