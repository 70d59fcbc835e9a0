/* Expressions as trees.  "Two expressions are the same when their trees are":
   a forest makes each tree once, so the same tree is always the same pointer. */
#ifndef TREES_H
#define TREES_H

#include <stdbool.h>
#include <stddef.h>

enum kind { EMPTY_LANGUAGE, EMPTY_WORD, LETTER, UNION, CONCATENATION, SHUFFLE, STAR };

struct list;

struct tree {
    enum kind kind;
    unsigned char letter;      /* of a LETTER */
    struct tree *left, *right; /* the parts; a STAR has a left part only */
    bool has_empty_word;       /* does its language hold the empty word? */
    size_t number;             /* place in the forest, in the order made */
    struct tree *next_in_slot;

    struct list *derivatives[256];     /* by letter, once asked for (derivative.c) */
    const struct list *latest_list;    /* the list it was last appended to (derivative.c) */
    bool is_state;                     /* and its state number (automaton.c) */
    size_t state;
};

enum { FOREST_SLOTS = 4099 };

struct forest {
    struct tree **trees;
    size_t count, allocated;
    size_t room;               /* no tree is made beyond this many */
    struct tree *slots[FOREST_SLOTS];
    bool has_letter[256];
    struct tree *empty_word;   /* the literal empty word is in every forest */
};

/* A forest without a limit that holds the literal empty word. */
struct forest *forest_new(void);

/* The tree of that kind and parts; NULL when it would be one more than the room. */
struct tree *forest_leaf(struct forest *forest, enum kind kind, unsigned char letter);
struct tree *forest_node(struct forest *forest, enum kind kind, struct tree *left, struct tree *right);

#endif
