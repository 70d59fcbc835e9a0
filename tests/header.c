/* include/gumpaleri.h as C and as C++: each of its names is used, with the number that 01, 2026-02 and docs/SIZING.md give it. */
#include "gumpaleri.h"
#include "gumpaleri.h" /* twice does no harm */

#include <assert.h>

/* 01, "Refusal numbers"; 2026-02. */
static_assert(GUMPALERI_SUCCESS == 0, "");
static_assert(GUMPALERI_COLUMNS_DIFFER == 1, "");
static_assert(GUMPALERI_TABLE_EMPTY == 2, "");
static_assert(GUMPALERI_TABLE_LONG == 3, "");
static_assert(GUMPALERI_KIND_UNKNOWN == 4, "");
static_assert(GUMPALERI_FIELD_OUTSIDE == 5, "");
static_assert(GUMPALERI_CHILD_NOT_SMALLER == 6, "");
static_assert(GUMPALERI_EMPTY_LANGUAGE_INSIDE == 7, "");
static_assert(GUMPALERI_NOT_NAMED_ONCE == 8, "");
static_assert(GUMPALERI_ROOM_SMALL == 9, "");
static_assert(GUMPALERI_AUTOMATON_MALFORMED == 10, "");
static_assert(GUMPALERI_WORK_SHORT == 11, "");
static_assert(GUMPALERI_TEXT_LONG == 12, "");
static_assert(GUMPALERI_NOT_GRAMMAR == 13, "");
static_assert(GUMPALERI_TOO_DEEP == 14, "");
static_assert(GUMPALERI_TOO_MANY_ENTRIES == 15, "");
static_assert(GUMPALERI_COUNTS_FEW == 23, "");

/* 2026-02: "the verdict (1 accepted, 2 unfinished, 3 wrong), its place (0 unless wrong) and live", "fewer than 4 numbers". */
static_assert(GUMPALERI_ACCEPTED == 1, "");
static_assert(GUMPALERI_UNFINISHED == 2, "");
static_assert(GUMPALERI_WRONG == 3, "");
static_assert(GUMPALERI_ENTRIES_AT == 0, "");
static_assert(GUMPALERI_STATES_AT == 0 && GUMPALERI_EXPRESSIONS_AT == 1 && GUMPALERI_ARCS_AT == 2, "");
static_assert(GUMPALERI_VERDICT_AT == 0 && GUMPALERI_WRONG_AT == 1 && GUMPALERI_LIVE_AT == 2, "");
static_assert(GUMPALERI_COUNTS == 4, "");

/* docs/SIZING.md, "Room", and the limits. */
static_assert(GUMPALERI_STATES(3) == 8 && GUMPALERI_EXPRESSIONS(5, 3) == 41 && GUMPALERI_ARCS(3) == 192, "");
static_assert(GUMPALERI_STATES(8) == 256 && GUMPALERI_EXPRESSIONS(17, 8) == 4353 && GUMPALERI_ARCS(8) == 524288, "");
static_assert(GUMPALERI_STATES(2 + 8) == 1024 && GUMPALERI_EXPRESSIONS(60 + 3, 2 + 8) == 64513 && GUMPALERI_ARCS(2 + 8) == 10485760, "");
static_assert(GUMPALERI_WORDS(0) == 0 && GUMPALERI_WORDS(1) == 1 && GUMPALERI_WORDS(63 + 1) == 1 && GUMPALERI_WORDS(65) == 2, "");
static_assert(GUMPALERI_WORDS(65535) == 1024, "");
static_assert(GUMPALERI_MOST_ENTRIES == 512 && GUMPALERI_MOST_TEXT == 4096, "");

/* Where the preprocessor reads them. */
#if GUMPALERI_STATES(5) != 32 || GUMPALERI_EXPRESSIONS(9, 5) != 289 || GUMPALERI_ARCS(5) != 5120 || GUMPALERI_WORDS(32) != 1
#error a size
#endif
#if GUMPALERI_VERSION_MAJOR < 0 || GUMPALERI_VERSION_MINOR < 0 || GUMPALERI_VERSION_PATCH < 0 || GUMPALERI_COUNTS != 4
#error a version
#endif

static uint8_t kind[GUMPALERI_MOST_ENTRIES], text[GUMPALERI_MOST_TEXT], xkind[GUMPALERI_EXPRESSIONS(9, 5)];
static uint8_t accepting[GUMPALERI_STATES(5)], letter[GUMPALERI_ARCS(5)];
static uint16_t left[GUMPALERI_MOST_ENTRIES], right[GUMPALERI_MOST_ENTRIES], expression[GUMPALERI_STATES(5)];
static uint16_t xleft[GUMPALERI_EXPRESSIONS(9, 5)], xright[GUMPALERI_EXPRESSIONS(9, 5)], from[GUMPALERI_ARCS(5)], to[GUMPALERI_ARCS(5)];
static uint64_t work[2][GUMPALERI_WORDS(GUMPALERI_STATES(5))], counts[GUMPALERI_COUNTS];
static const char version[] = GUMPALERI_VERSION;

#define LENT(column) (column), sizeof(column) / sizeof *(column)

int main(void)
{
    uint64_t answer = gumpaleri_read(text, sizeof version, LENT(kind), LENT(left), LENT(right), LENT(counts));
    size_t entries = counts[GUMPALERI_ENTRIES_AT], states = counts[GUMPALERI_STATES_AT];
    enum gumpaleri_refusal none = GUMPALERI_SUCCESS;
    enum gumpaleri_verdict verdict = GUMPALERI_ACCEPTED;

    answer |= gumpaleri_build(kind, entries, left, entries, right, entries, LENT(xkind), LENT(xleft), LENT(xright), LENT(expression),
                              LENT(accepting), LENT(from), LENT(letter), LENT(to), LENT(counts));
    answer |= gumpaleri_judge(states, LENT(accepting), counts[GUMPALERI_ARCS_AT], LENT(from), LENT(letter), LENT(to), text, 0,
                              LENT(work[0]), LENT(work[1]), LENT(counts));
    switch (gumpaleri_number(answer)) {
    case GUMPALERI_SUCCESS: return counts[GUMPALERI_VERDICT_AT] != verdict;
    default: return gumpaleri_place(answer) == none;
    }
}
