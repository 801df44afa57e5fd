#include "text.h"

int ends_line(char byte)
{
    return byte == '\n';
}
