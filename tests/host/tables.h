/* Expression tables for the builder. */
#ifndef TABLES_H
#define TABLES_H

#include <stddef.h>
#include <stdint.h>

#include "../../peer/host.h"

enum { TABLE_ROOM = 600 };

struct table {
    uint8_t kind[TABLE_ROOM];
    uint16_t left[TABLE_ROOM], right[TABLE_ROOM];
    size_t length;
};

/* What a table needs: states, expressions, arcs; zeros if it is refused. */
struct needs {
    size_t states, expressions, arcs;
};

/* A random table with that many leaves, its entries in any order that has children before parents. */
void make_table(struct table *table, size_t leaves);
struct needs needs_of(const struct table *table);

/* The call that hands on the whole table, with those rooms. */
struct build_call call_with(const struct table *table, struct needs rooms, size_t counts);

/* Calls of gumpaleri_build: those written down, a few large ones, two at 01's limit of expressions, and a random one. */
void build_aimed(void);
void build_large(void);
void build_limits(void);
void build_random(void);

#endif
