/* 01, "The written expression". */
#ifndef READER_H
#define READER_H

#include "refusal.h"
#include "trees.h"

enum { MOST_OPEN = 64, MOST_ENTRIES = 512 };

/* Reads a text of at most 4,096 bytes; on success *root is its tree. */
struct refusal read_text(struct forest *forest, const unsigned char *text, size_t length, struct tree **root);

#endif
