#include "random.h"

#include <string.h>

static uint64_t given, state;

void set_seed(uint64_t seed)
{
    given = state = seed;
}

uint64_t get_seed(void)
{
    return given;
}

/* The generator splitmix64. */
uint64_t draw(void)
{
    uint64_t mixed = state += UINT64_C(0x9e3779b97f4a7c15);
    mixed = (mixed ^ (mixed >> 30)) * UINT64_C(0xbf58476d1ce4e5b9);
    mixed = (mixed ^ (mixed >> 27)) * UINT64_C(0x94d049bb133111eb);
    return mixed ^ (mixed >> 31);
}

size_t below(size_t end)
{
    return (size_t)(draw() % end);
}

size_t between(size_t first, size_t last)
{
    return first + below(last - first + 1);
}

bool one_in(size_t times)
{
    return below(times) == 0;
}

void fill(void *at, size_t bytes)
{
    unsigned char *to = at;
    while (bytes > 0) {
        uint64_t word = draw();
        size_t part = bytes < sizeof word ? bytes : sizeof word;
        memcpy(to, &word, part);
        to += part;
        bytes -= part;
    }
}
