/* Memory that is given back all at once: after an expression line, or by a program that reads one line at its end. */
#ifndef MEMORY_H
#define MEMORY_H

#include <stddef.h>

/* As calloc and realloc, but the program ends when there is no memory. */
void *zeroed(size_t bytes);
void *grown(void *memory, size_t bytes);

/* Gives back one piece that zeroed or grown gave. */
void give_back(void *memory);

/* Gives back all that zeroed and grown gave. */
void give_all_back(void);

#endif
