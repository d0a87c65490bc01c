/* Cells of eight bytes, the low byte first, for the programs here. */
#ifndef CELLS_H
#define CELLS_H

#include <stddef.h>
#include <stdint.h>
#include <string.h>

static inline void put_cell(uint8_t *list, size_t i, uint64_t v)
{
    int k;
    for (k = 0; k < 8; k++)
        list[8 * i + (size_t)k] = (uint8_t)(v >> (8 * k));
}

static inline uint64_t cell(const uint8_t *list, size_t i)
{
    uint64_t v = 0;
    int k;
    for (k = 7; k >= 0; k--)
        v = v << 8 | list[8 * i + (size_t)k];
    return v;
}

static inline uint64_t bits(double x)
{
    uint64_t v;
    memcpy(&v, &x, 8);
    return v;
}

#endif
