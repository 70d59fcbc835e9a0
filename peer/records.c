/* Reads an expression line, then judges one record per line. */
#include <stdio.h>

#include "expression_line.h"
#include "lines.h"
#include "matcher.h"

static void print_verdict(struct verdict verdict)
{
    static const char *const words[] = { [ACCEPTED] = "accepted", [UNFINISHED] = "unfinished", [WRONG] = "wrong" };
    printf("%s %zu\n", words[verdict.found], verdict.count);
}

static void judge_lines(const struct automaton *automaton)
{
    struct line line;
    for (read_line(stdin, &line); line.found != NO_LINE; read_line(stdin, &line))
        if (line.found == LONG_LINE) {
            pass_over_rest(stdin);
            print_refusal((struct refusal){ RECORD_TOO_LONG, 0 });
        } else {
            print_verdict(judge(automaton, line.bytes, line.length));
        }
}

int main(void)
{
    struct automaton automaton;
    struct refusal refusal = read_expression_line(stdin, program_rooms, forest_new(), &automaton);
    /* "stops there if the expression was refused and goes on if it was a record" */
    if (refusal.number != SUCCESS)
        print_refusal(refusal);
    else
        judge_lines(&automaton);
    return written();
}
