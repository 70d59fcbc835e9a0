#include "memory.h"

#include <stdalign.h>
#include <stdio.h>
#include <stdlib.h>

/* Stands before each piece of memory, in a ring. */
struct piece {
    alignas(max_align_t) struct piece *before;
    struct piece *after;
};

static struct piece all = { &all, &all };

static struct piece *joined(struct piece *piece)
{
    if (!piece) {
        fputs("out of memory\n", stderr);
        exit(EXIT_FAILURE);
    }
    piece->before = &all;
    piece->after = all.after;
    piece->before->after = piece;
    piece->after->before = piece;
    return piece;
}

static struct piece *parted(void *memory)
{
    struct piece *piece = (struct piece *)memory - 1;
    piece->before->after = piece->after;
    piece->after->before = piece->before;
    return piece;
}

void *zeroed(size_t bytes)
{
    return joined(calloc(1, sizeof(struct piece) + bytes)) + 1;
}

void *grown(void *memory, size_t bytes)
{
    struct piece *piece = memory ? parted(memory) : NULL;
    return joined(realloc(piece, sizeof *piece + bytes)) + 1;
}

void give_back(void *memory)
{
    free(parted(memory));
}

void give_all_back(void)
{
    while (all.after != &all) {
        struct piece *piece = all.after;
        all.after = piece->after;
        free(piece);
    }
    all.before = &all;
}
