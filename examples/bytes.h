/* Big-endian numbers in bytes, for the programs beside this file. */
#ifndef EXAMPLES_BYTES_H
#define EXAMPLES_BYTES_H
#include <stdint.h>

static inline uint16_t get16(const uint8_t *s)
{
    return (uint16_t)(s[0] << 8 | s[1]);
}

static inline uint32_t get32(const uint8_t *s)
{
    return (uint32_t)get16(s) << 16 | get16(s + 2);
}

static inline uint64_t get64(const uint8_t *s)
{
    return (uint64_t)get32(s) << 32 | get32(s + 4);
}

static inline void put16(uint8_t *s, uint16_t v)
{
    s[0] = (uint8_t)(v >> 8);
    s[1] = (uint8_t)v;
}

static inline void put32(uint8_t *s, uint32_t v)
{
    put16(s, (uint16_t)(v >> 16));
    put16(s + 2, (uint16_t)v);
}

static inline void put64(uint8_t *s, uint64_t v)
{
    put32(s, (uint32_t)(v >> 32));
    put32(s + 4, (uint32_t)v);
}

#endif
