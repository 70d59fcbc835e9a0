/* Texts for the reader. */
#ifndef TEXTS_H
#define TEXTS_H

#include <stddef.h>
#include <stdint.h>

enum { TEXT_ROOM = 5000 };

struct text {
    uint8_t bytes[TEXT_ROOM];
    size_t length;
};

void make_well_formed(struct text *text, size_t size);

/* Calls of gumpaleri_read: those written down, and a random one. */
void read_aimed(void);
void read_random(void);

#endif
