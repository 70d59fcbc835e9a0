#include "trees.h"

#include <stdint.h>

#include "memory.h"

static bool holds_empty_word(enum kind kind, const struct tree *left, const struct tree *right)
{
    switch (kind) {
    case EMPTY_WORD:
    case STAR:
        return true;
    case UNION:
        return left->has_empty_word || right->has_empty_word;
    case CONCATENATION:
    case SHUFFLE:
        return left->has_empty_word && right->has_empty_word;
    default:
        return false;
    }
}

static size_t slot_of(enum kind kind, unsigned char letter, const struct tree *left, const struct tree *right)
{
    uint64_t mixed = (uint64_t)kind * 256 + letter;
    mixed = mixed * 1000003 + (left ? left->number + 1 : 0);
    mixed = mixed * 1000003 + (right ? right->number + 1 : 0);
    return mixed % FOREST_SLOTS;
}

static struct tree *find_or_make(struct forest *forest, enum kind kind, unsigned char letter,
                                 struct tree *left, struct tree *right)
{
    struct tree **slot = &forest->slots[slot_of(kind, letter, left, right)];
    for (struct tree *tree = *slot; tree; tree = tree->next_in_slot)
        if (tree->kind == kind && tree->letter == letter && tree->left == left && tree->right == right)
            return tree;
    /* Only a tree that is not there yet needs room. */
    if (forest->count == forest->room)
        return NULL;
    if (forest->count == forest->allocated) {
        forest->allocated = forest->allocated ? 2 * forest->allocated : 64;
        forest->trees = grown(forest->trees, forest->allocated * sizeof *forest->trees);
    }
    struct tree *tree = zeroed(sizeof *tree);
    tree->kind = kind;
    tree->letter = letter;
    tree->left = left;
    tree->right = right;
    tree->has_empty_word = holds_empty_word(kind, left, right);
    tree->number = forest->count;
    tree->next_in_slot = *slot;
    *slot = tree;
    forest->trees[forest->count++] = tree;
    return tree;
}

struct tree *forest_leaf(struct forest *forest, enum kind kind, unsigned char letter)
{
    if (kind == LETTER)
        forest->has_letter[letter] = true;
    return find_or_make(forest, kind, letter, NULL, NULL);
}

struct tree *forest_node(struct forest *forest, enum kind kind, struct tree *left, struct tree *right)
{
    return find_or_make(forest, kind, 0, left, right);
}

struct forest *forest_new(void)
{
    struct forest *forest = zeroed(sizeof *forest);
    forest->room = SIZE_MAX;
    forest->empty_word = forest_leaf(forest, EMPTY_WORD, 0);
    return forest;
}
