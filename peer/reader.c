#include "reader.h"

/* A parenthesis still open: its sign and left part once they were read. */
struct open {
    struct tree *left;
    enum kind sign;
};

/* What the bytes before a place have come to. */
struct reading {
    struct forest *forest;
    struct open opened[MOST_OPEN];
    size_t open_count;
    size_t entries;
    struct tree *ended; /* the expression that ended just before, NULL where one must begin */
};

static bool is_letter(unsigned char byte)
{
    return (byte >= 'A' && byte <= 'Z') || (byte >= 'a' && byte <= 'z');
}

static bool is_sign(unsigned char byte, enum kind *kind)
{
    switch (byte) {
    case '+': *kind = UNION; return true;
    case '.': *kind = CONCATENATION; return true;
    case '&': *kind = SHUFFLE; return true;
    default: return false;
    }
}

/* "Entries are made in this order: `0`, `1` or a letter at its byte, a star at its `*`,
   a sign's entry at its `)`."  Counts the entry and tells whether there is one too many. */
static bool one_entry_more(struct reading *reading)
{
    return ++reading->entries > MOST_ENTRIES;
}

/* A byte where an expression must begin. */
static enum refusal_number begin(struct reading *reading, unsigned char byte, size_t place)
{
    if (byte == '(') {
        if (reading->open_count == MOST_OPEN)
            return TOO_MANY_OPEN;
        reading->opened[reading->open_count++].left = NULL;
        return SUCCESS;
    }
    enum kind kind;
    if (byte == '0' && place == 0) /* "`0` alone is the empty language" */
        kind = EMPTY_LANGUAGE;
    else if (byte == '1')
        kind = EMPTY_WORD;
    else if (is_letter(byte))
        kind = LETTER;
    else
        return NO_SUCH_TEXT;
    if (one_entry_more(reading))
        return TOO_MANY_ENTRIES;
    reading->ended = forest_leaf(reading->forest, kind, kind == LETTER ? byte : 0);
    return SUCCESS;
}

/* A byte after an expression: a star, the sign of the innermost open parenthesis, or its end. */
static enum refusal_number carry_on(struct reading *reading, unsigned char byte)
{
    struct open *inner = reading->open_count ? &reading->opened[reading->open_count - 1] : NULL;
    enum kind sign;
    if (byte == '*' && reading->ended->kind != EMPTY_LANGUAGE) {
        if (one_entry_more(reading))
            return TOO_MANY_ENTRIES;
        reading->ended = forest_node(reading->forest, STAR, reading->ended, NULL);
    } else if (inner && !inner->left && is_sign(byte, &sign)) {
        inner->left = reading->ended;
        inner->sign = sign;
        reading->ended = NULL;
    } else if (inner && inner->left && byte == ')') {
        if (one_entry_more(reading))
            return TOO_MANY_ENTRIES;
        reading->ended = forest_node(reading->forest, inner->sign, inner->left, reading->ended);
        reading->open_count--;
    } else {
        return NO_SUCH_TEXT;
    }
    return SUCCESS;
}

struct refusal read_text(struct forest *forest, const unsigned char *text, size_t length, struct tree **root)
{
    struct reading reading = { .forest = forest };
    /* The first byte at which 13, 14 or 15 arises is the earliest of them all. */
    for (size_t place = 0; place < length; place++) {
        enum refusal_number number = reading.ended ? carry_on(&reading, text[place])
                                                   : begin(&reading, text[place], place);
        if (number != SUCCESS)
            return (struct refusal){ number, place };
    }
    /* "or the text's length if it stops early" */
    if (!reading.ended || reading.open_count > 0)
        return (struct refusal){ NO_SUCH_TEXT, length };
    *root = reading.ended;
    return (struct refusal){ SUCCESS, 0 };
}
