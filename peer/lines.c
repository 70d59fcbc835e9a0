#include "lines.h"

#include <stdlib.h>

/* A read that fails is no end of the input: what was answered before it is printed, and the program ends. */
static int next_byte(FILE *input)
{
    int byte = getc(input);
    if (byte == EOF && ferror(input)) {
        fflush(stdout);
        fputs("read failed\n", stderr);
        exit(EXIT_FAILURE);
    }
    return byte;
}

void read_line(FILE *input, struct line *line)
{
    line->length = 0;
    int byte;
    while ((byte = next_byte(input)) != EOF && byte != '\n') {
        if (line->length == MOST_BYTES) {
            line->found = LONG_LINE;
            return;
        }
        line->bytes[line->length++] = (unsigned char)byte;
    }
    line->found = byte == '\n' || line->length > 0 ? WHOLE_LINE : NO_LINE;
}

void pass_over_rest(FILE *input)
{
    int byte;
    do
        byte = next_byte(input);
    while (byte != EOF && byte != '\n');
}

int written(void)
{
    if (fflush(stdout) == 0 && !ferror(stdout))
        return EXIT_SUCCESS;
    fputs("write failed\n", stderr);
    return EXIT_FAILURE;
}
