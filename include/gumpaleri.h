/*
 * Gumpaleri: the sequence checker for the events of seawater pumps, for programs in C11 and C++11.
 *
 *   gumpaleri_read    turns the text of a site's expression into an expression table
 *   gumpaleri_build   turns the table into its automaton
 *   gumpaleri_judge   judges a record against the automaton: accepted, unfinished, or wrong at a byte
 *
 * Link libgumpaleri.a, which `./archive` makes, of the same version: x86-64 code in ELF, with the calling convention of Linux.
 * It needs nothing but memcpy and memset. docs/GUIDE.md, part 6, goes through an example.
 *
 * WHAT IS LENT. Every column and every text is a pointer, and behind it how many elements it has (not how many bytes).
 *   - So many elements are there. All may be read, and those of a pointer that is not const may be written. The call cannot
 *     find out whether that is so: it is the caller's to see to.
 *   - The pointer is not null and is aligned for its type, also where the length is 0. Nothing is then read or written
 *     through it, so that any address of that type will do: an empty record is a buffer's address with the length 0.
 *   - An element that is lent for writing belongs to one column of the call alone: such columns, `counts` among them, may
 *     not overlap each other nor anything that the call reads. What is only read may overlap.
 *   - What a column for writing holds before a call makes no difference.
 *   - The columns of one table have one length; else the call refuses. Columns for writing, and those that judge reads, may be
 *     longer than needed, and what is longer is written too. The table that build reads may not: it is the whole of its columns.
 *
 * WHAT IS ANSWERED. Every call takes any lengths, any numbers and any contents, and ends. It answers number and place of a
 * refusal in one number, gumpaleri_number(..) and gumpaleri_place(..); 0 is success. On success every column that was lent for
 * writing is written whole, with 0 beyond what the call has to say. On a refusal all of them hold 0 in every element, `counts`
 * too, however short it is.
 *
 * WHAT IS KEPT. Nothing: the archive has no data that can be written, so a call has no memory between calls; it takes none from
 * a heap and calls nobody back. Calls may be made at the same time from several threads if what one of them is lent for writing is
 * lent to no other in any way. So threads may judge against one automaton, each with work columns and counts of its own.
 *
 * STACK. judge takes 0.2 KB. read and build go down with the nesting of the expression: for a site with two pumps they take 2 KB and
 * 4 KB, for the worst texts 22 KB and 354 KB. If texts come from elsewhere, lend no more entries than a site has: then the read
 * refuses a larger one, and a build takes at most about 2 KB and 0.7 KB for each entry. Measured, not proved (docs/SIZING.md).
 */
#ifndef GUMPALERI_H
#define GUMPALERI_H

#include <stddef.h>
#include <stdint.h>

#define GUMPALERI_VERSION_MAJOR 0
#define GUMPALERI_VERSION_MINOR 4
#define GUMPALERI_VERSION_PATCH 0
#define GUMPALERI_VERSION "0.4.0"

#ifdef __cplusplus
extern "C" {
#endif

/* ---- Answers */

/*
 * The number of a refusal. Its place is an entry or a byte, counted from 0, where "at" is said here; else it is 0.
 * docs/REFUSALS.md says of each what to do about it. Later versions may have more: give a switch over them a default.
 */
enum gumpaleri_refusal {
    GUMPALERI_SUCCESS = 0,
    GUMPALERI_COLUMNS_DIFFER = 1,        /* the columns of one table differ in length */
    GUMPALERI_TABLE_EMPTY = 2,           /* build: the expression table has no entry */
    GUMPALERI_TABLE_LONG = 3,            /* build: it has over 512 */
    GUMPALERI_KIND_UNKNOWN = 4,          /* build, at the entry */
    GUMPALERI_FIELD_OUTSIDE = 5,         /* build, at the entry: a letter out of range, or a field that should be 0 */
    GUMPALERI_CHILD_NOT_SMALLER = 6,     /* build, at the entry: it names itself or a later one as its child */
    GUMPALERI_EMPTY_LANGUAGE_INSIDE = 7, /* build, at the entry: kind 0 in a table of more than one entry */
    GUMPALERI_NOT_NAMED_ONCE = 8,        /* build, at the smallest entry but the last that is not named exactly once */
    GUMPALERI_ROOM_SMALL = 9,            /* build: more states, expressions or arcs are needed than there is room for */
    GUMPALERI_AUTOMATON_MALFORMED = 10,  /* judge: what it was handed is no automaton; so it is with 0 states */
    GUMPALERI_WORK_SHORT = 11,           /* judge: a work column has fewer words than GUMPALERI_WORDS(states) */
    GUMPALERI_TEXT_LONG = 12,            /* read: the text has over 4,096 bytes */
    GUMPALERI_NOT_GRAMMAR = 13,          /* read, at the first byte that cannot stand there, or at the length if it stops early */
    GUMPALERI_TOO_DEEP = 14,             /* read, at the 65th parenthesis opened at once */
    GUMPALERI_TOO_MANY_ENTRIES = 15,     /* read, at the byte whose entry is one more than 512 or than the columns hold */
    GUMPALERI_COUNTS_FEW = 23            /* `counts` has fewer than GUMPALERI_COUNTS numbers; told before all others */
};

/* The number of the refusal in an answer of one of the three calls, one of enum gumpaleri_refusal. */
static inline uint32_t gumpaleri_number(uint64_t answer)
{
    return (uint32_t)(answer >> 32);
}

/* Its place. */
static inline uint32_t gumpaleri_place(uint64_t answer)
{
    return (uint32_t)(answer & 0xffffffffu);
}

/* The fewest numbers that `counts` has. Any more of them are set to 0. */
#define GUMPALERI_COUNTS 4

/* Where a number stands in `counts`. All others are 0. */
enum {
    GUMPALERI_ENTRIES_AT = 0,                                                     /* of read */
    GUMPALERI_STATES_AT = 0, GUMPALERI_EXPRESSIONS_AT = 1, GUMPALERI_ARCS_AT = 2, /* of build */
    GUMPALERI_VERDICT_AT = 0, GUMPALERI_WRONG_AT = 1, GUMPALERI_LIVE_AT = 2       /* of judge */
};

/* What is in counts[GUMPALERI_VERDICT_AT] after a record was judged; 0 if the call refused. */
enum gumpaleri_verdict {
    GUMPALERI_ACCEPTED = 1,   /* an accepting state is reached: if build made the automaton, the record is in the language */
    GUMPALERI_UNFINISHED = 2, /* states are reached by the whole record, none of them accepting */
    GUMPALERI_WRONG = 3       /* counts[GUMPALERI_WRONG_AT] is the first byte, from 0, after which no state is reached */
};

/* ---- Sizes
 *
 * An expression has n entries: each letter, 0, 1, sign and star is one, and parentheses are none. m of them are letters, counted
 * with repeats. With m at most 10 and GUMPALERI_EXPRESSIONS(n, m) at most 65,535, columns of these lengths are always enough:
 * no expression of that size or a smaller one is refused for room. That is proved (docs/PROMISES.md, host_demands). Most sites
 * need far less (docs/SIZING.md), and a smaller room is refused only if the expression does not fit in it.
 * With constants these are constants: for the length of a static column, where m is 1 at the least, and in #if. Arguments may
 * be evaluated twice.
 */

/* The most that an expression table may have, and a text. */
#define GUMPALERI_MOST_ENTRIES 512
#define GUMPALERI_MOST_TEXT 4096

#define GUMPALERI_STATES(m) (UINT64_C(1) << (m))
#define GUMPALERI_EXPRESSIONS(n, m) ((n) * GUMPALERI_STATES(m) + 1)
#define GUMPALERI_ARCS(m) ((m) * GUMPALERI_STATES(m) * GUMPALERI_STATES(m))

/* The words that each of the matcher's two work columns has at the least: the states divided by 64, rounded up. */
#define GUMPALERI_WORDS(states) ((states) / UINT64_C(64) + ((states) % UINT64_C(64) != 0))

/* ---- The three calls */

/*
 * Reads a text.  Refusals: 23, 1, 12, then the one of 13, 14 and 15 with the earliest byte.
 * counts: the entries made, at least 1. Hand that many elements of each column on to gumpaleri_build.
 */
uint64_t gumpaleri_read(
    const uint8_t *text, size_t text_length,   /* the expression as it is written, without a newline or a closing 0 */
    uint8_t *kind, size_t kind_length,         /* for the expression table: what an entry is (docs/TABLES.md), */
    uint16_t *left, size_t left_length,        /* its letter or its first child, */
    uint16_t *right, size_t right_length,      /* its second child; the three lengths are one */
    uint64_t *counts, size_t counts_length);   /* for the answer's counts, GUMPALERI_COUNTS or more */

/*
 * Builds the automaton of an expression table.  Refusals: 23, 1, 2, 3, then by entry 4, 5, 6, 7, then 8, then 9.  A table that
 * gumpaleri_read made gets none of 1 to 8 if each of the four tables here has columns of one length.
 * counts: the states, expressions and arcs made.
 */
uint64_t gumpaleri_build(
    const uint8_t *kind, size_t kind_length,           /* the expression table: as many elements as it has entries, and no more */
    const uint16_t *left, size_t left_length,
    const uint16_t *right, size_t right_length,
    uint8_t *xkind, size_t xkind_length,               /* for the expressions met, rows of the same form: working room, */
    uint16_t *xleft, size_t xleft_length,              /* not needed any more once the automaton is built */
    uint16_t *xright, size_t xright_length,
    uint16_t *expression, size_t expression_length,    /* for the states: which expression a state is (judge does not need it), */
    uint8_t *accepting, size_t accepting_length,       /* and 1 where a record may end in it, else 0; state 0 is the beginning */
    uint16_t *from, size_t from_length,                /* for the arcs: from a state */
    uint8_t *letter, size_t letter_length,             /* by an event */
    uint16_t *to, size_t to_length,                    /* to a state */
    uint64_t *counts, size_t counts_length);           /* for the answer's counts, GUMPALERI_COUNTS or more */

/*
 * Judges a record.  Refusals: 23, 1 (the arc columns), 10, 11.  An automaton that gumpaleri_build made never gets 10.
 * counts: the verdict; the place of the wrong byte, 0 unless the verdict is wrong; live, how many states the whole record
 * reaches, 0 if the verdict is wrong.
 */
uint64_t gumpaleri_judge(
    size_t states,                                     /* the automaton's states: counts[GUMPALERI_STATES_AT] of the build, */
    const uint8_t *accepting, size_t accepting_length, /* and its column, so long or longer */
    size_t arcs,                                       /* its arcs: counts[GUMPALERI_ARCS_AT] of the build, */
    const uint16_t *from, size_t from_length,          /* and their columns, so long or longer. It may all come from */
    const uint8_t *letter, size_t letter_length,       /* anywhere, and none of it is trusted */
    const uint16_t *to, size_t to_length,
    const uint8_t *record, size_t record_length,       /* the events, a byte each; any bytes, and as many as there are */
    uint64_t *current, size_t current_length,          /* the two work columns, one bit for each state; they may differ */
    uint64_t *next, size_t next_length,                /* in length, and hold 0 afterwards */
    uint64_t *counts, size_t counts_length);           /* for the verdict, GUMPALERI_COUNTS or more */

#ifdef __cplusplus
}
#endif

#endif
