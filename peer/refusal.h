/* 01, "Refusal numbers", and those of 02 that have come so far. */
#ifndef REFUSAL_H
#define REFUSAL_H

#include <stddef.h>

enum refusal_number {
    SUCCESS = 0,
    COLUMNS_DIFFER = 1,
    NO_ENTRY = 2,
    OVER_MOST_ENTRIES = 3,
    NO_SUCH_KIND = 4,
    FIELD_OUTSIDE = 5,
    CHILD_NOT_SMALLER = 6,
    EMPTY_LANGUAGE_INSIDE = 7,
    NOT_NAMED_ONCE = 8,
    ROOM_TOO_SMALL = 9,
    NO_AUTOMATON = 10,
    WORK_TOO_SHORT = 11,
    TEXT_TOO_LONG = 12,
    NO_SUCH_TEXT = 13,
    TOO_MANY_OPEN = 14,
    TOO_MANY_ENTRIES = 15,
    RECORD_TOO_LONG = 16,
    TOO_MANY_LINES = 22,
    TOO_FEW_COUNTS = 23
};

/* "Success is 0 with place 0." */
struct refusal {
    enum refusal_number number;
    size_t place;
};

/* Prints `refused R P`. */
void print_refusal(struct refusal refusal);

#endif
