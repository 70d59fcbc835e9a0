/* 01, "Reading a record". */
#ifndef MATCHER_H
#define MATCHER_H

#include "automaton.h"

struct verdict {
    enum { ACCEPTED, UNFINISHED, WRONG } found;
    size_t count; /* live, or the place of the first wrong byte */
};

struct verdict judge(const struct automaton *automaton, const unsigned char *record, size_t length);

#endif
