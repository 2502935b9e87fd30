/* What reading bytes once costs, whatever is done with them: the least that a test of all of them can take. */
#ifndef FLOOR_H
#define FLOOR_H

#include <stddef.h>
#include <stdint.h>

/* The sum of the bytes, of which there are no more than a list has. */
uint32_t floor_sum(const uint8_t *bytes, size_t count);

#endif
