/* Random numbers from a seed that is printed, so that a difference can be met again. */
#ifndef RANDOM_H
#define RANDOM_H

#include <stdbool.h>
#include <stddef.h>
#include <stdint.h>

void set_seed(uint64_t seed);
uint64_t get_seed(void);

uint64_t draw(void);
size_t below(size_t end);                 /* 0 to end - 1; end is not 0 */
size_t between(size_t first, size_t last);
bool one_in(size_t times);
void fill(void *at, size_t bytes);

#endif
