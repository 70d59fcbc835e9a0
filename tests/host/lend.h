/* Lending: every column of a call lies in pages of its own and has "exactly its length".  By chance it ends where a page that
   nobody may touch begins, or begins where such a page ends; on its other side stand guard bytes. */
#ifndef LEND_H
#define LEND_H

#include <stddef.h>

/* Maps the pages and tries that each forbidden one is indeed forbidden. */
void prepare_lending(void);

/* A new call: whatever was lent before is there no more. */
void begin_lending(void);

/* What is only read is a copy of the contents, what is written is filled with random bytes.  The name is for differences.
   "What is only read may overlap": the same contents for reading twice in one call are lent once. */
const void *lend_to_read(const char *name, const void *contents, size_t bytes);
void *lend_to_write(const char *name, size_t bytes);

/* After the call: all guard bytes are as before, and so is all that was only to be read. */
void hold_lent(void);

#endif
