/* The floor of the bench, in a file of its own, so that it is compiled by the same compilers as the independent program. */
#include "floor.h"

uint32_t floor_sum(const uint8_t *bytes, size_t count)
{
    uint32_t sum = 0;
    for (size_t i = 0; i < count; i++)
        sum += bytes[i];
    return sum;
}
