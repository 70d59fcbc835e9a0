#include "derivative.h"

#include "memory.h"

/* A list is filled only after the lists it is made from are whole, so a tree's latest list
   tells whether it is a member already. */
static void append(struct list *list, struct tree *member)
{
    if (member->latest_list == list)
        return;
    member->latest_list = list;
    if (list->count == list->allocated) {
        list->allocated = list->allocated ? 2 * list->allocated : 4;
        list->members = grown(list->members, list->allocated * sizeof *list->members);
    }
    list->members[list->count++] = member;
}

/* "followed by the literal empty word, or shuffled with it on either side, it stays as it is
   (004); the literal empty word followed by y is y": for both signs the literal empty word
   on one side leaves the other side. */
static struct tree *join(struct forest *forest, enum kind sign, struct tree *left, struct tree *right)
{
    if (left == forest->empty_word)
        return right;
    if (right == forest->empty_word)
        return left;
    return forest_node(forest, sign, left, right);
}

/* Each member of the list joined with y on its right; false when the room does not suffice. */
static bool append_joined_right(struct forest *forest, struct list *list, enum kind sign,
                                const struct list *members, struct tree *y)
{
    for (size_t i = 0; i < members->count; i++) {
        struct tree *joined = join(forest, sign, members->members[i], y);
        if (!joined)
            return false;
        append(list, joined);
    }
    return true;
}

/* x shuffled with each member of the list. */
static bool append_shuffled_left(struct forest *forest, struct list *list, struct tree *x,
                                 const struct list *members)
{
    for (size_t i = 0; i < members->count; i++) {
        struct tree *joined = join(forest, SHUFFLE, x, members->members[i]);
        if (!joined)
            return false;
        append(list, joined);
    }
    return true;
}

static void append_all(struct list *list, const struct list *members)
{
    for (size_t i = 0; i < members->count; i++)
        append(list, members->members[i]);
}

static bool fill(struct forest *forest, struct list *list, struct tree *tree, unsigned char letter)
{
    /* Only lists that the rules ask for are made: each tree made is then a part of the result. */
    bool asks_left = tree->kind >= UNION;
    bool asks_right = tree->kind == UNION || tree->kind == SHUFFLE
                      || (tree->kind == CONCATENATION && tree->left->has_empty_word);
    const struct list *of_left = asks_left ? derivative(forest, tree->left, letter) : NULL;
    if (asks_left && !of_left)
        return false;
    const struct list *of_right = asks_right ? derivative(forest, tree->right, letter) : NULL;
    if (asks_right && !of_right)
        return false;

    switch (tree->kind) {
    case EMPTY_LANGUAGE:
    case EMPTY_WORD:
        return true;
    case LETTER:
        if (tree->letter == letter)
            append(list, forest->empty_word);
        return true;
    case UNION:
        append_all(list, of_left);
        append_all(list, of_right);
        return true;
    case CONCATENATION:
        if (!append_joined_right(forest, list, CONCATENATION, of_left, tree->right))
            return false;
        if (of_right)
            append_all(list, of_right);
        return true;
    case STAR:
        return append_joined_right(forest, list, CONCATENATION, of_left, tree);
    case SHUFFLE:
        return append_joined_right(forest, list, SHUFFLE, of_left, tree->right)
               && append_shuffled_left(forest, list, tree->left, of_right);
    }
    return false;
}

const struct list *derivative(struct forest *forest, struct tree *tree, unsigned char letter)
{
    if (!tree->derivatives[letter]) {
        struct list *list = zeroed(sizeof *list);
        if (!fill(forest, list, tree, letter))
            return NULL;
        tree->derivatives[letter] = list;
    }
    return tree->derivatives[letter];
}
