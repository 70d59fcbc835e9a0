/* 01, "Derivatives, and the order of states and arcs". */
#ifndef DERIVATIVE_H
#define DERIVATIVE_H

#include "trees.h"

/* "a list without repeats, a repeated member kept at its first place" */
struct list {
    struct tree **members;
    size_t count, allocated;
};

/* The derivative by that letter; NULL when the forest's room does not suffice. */
const struct list *derivative(struct forest *forest, struct tree *tree, unsigned char letter);

#endif
