/* What all programs begin with: an expression line becomes an automaton. */
#ifndef EXPRESSION_LINE_H
#define EXPRESSION_LINE_H

#include <stdio.h>

#include "automaton.h"

struct refusal read_expression_line(FILE *input, struct rooms rooms, struct forest *forest,
                                    struct automaton *automaton);

#endif
