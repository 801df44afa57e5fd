#include "count.h"

size_t total_of(const struct tally *tally)
{
    return tally->lines + tally->words + tally->bytes;
}
