/* Numbers that are drawn, the same ones for the same seed. */
#ifndef DRAWN_H
#define DRAWN_H

#include <stdint.h>

/* The generator; a program sets it to its seed. */
static uint64_t state;

static inline uint64_t mix(uint64_t x)
{
    x = (x ^ x >> 30) * UINT64_C(0xbf58476d1ce4e5b9);
    x = (x ^ x >> 27) * UINT64_C(0x94d049bb133111eb);
    return x ^ x >> 31;
}

/* Any number of eight bytes. */
static inline uint64_t drawn_word(void)
{
    state += UINT64_C(0x9e3779b97f4a7c15);
    return mix(state);
}

static inline uint32_t drawn(uint32_t below) { return (uint32_t)(drawn_word() >> 32) % below; }

#endif
