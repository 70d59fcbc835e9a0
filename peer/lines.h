/* Lines end at a newline (byte 10) alone; a last line without one counts if it has a byte.
   A read or a write that fails ends the program with status 1 and a word on standard error. */
#ifndef LINES_H
#define LINES_H

#include <stddef.h>
#include <stdio.h>

/* The most bytes of a text and of a record line. */
enum { MOST_BYTES = 4096 };

struct line {
    enum { NO_LINE, WHOLE_LINE, LONG_LINE } found;
    unsigned char bytes[MOST_BYTES];
    size_t length;
};

/* Reads one line with its newline; of a line over MOST_BYTES only as much as shows that. */
void read_line(FILE *input, struct line *line);

/* Passes over the rest of a LONG_LINE with its newline. */
void pass_over_rest(FILE *input);

/* The exit status of a program that has answered: whether all of its output was written. */
int written(void);

#endif
