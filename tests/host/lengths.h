/* How long columns are made. */
#ifndef LENGTHS_H
#define LENGTHS_H

#include <stddef.h>

/* "23, that slice has fewer than 4 numbers": mostly 4, often more, now and then fewer. */
size_t some_counts(void);

/* A length about the one that is needed: exactly it, one less, none, or more. */
size_t some_length(size_t needed);

/* Makes one of the lengths another than it was. */
void make_uneven(size_t *const *lengths, size_t count);

#endif
