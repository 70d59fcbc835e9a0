/* 2026-01: reads a file of site expressions, prints for each line what it takes of the programs' rooms, and the totals. */
#include <inttypes.h>
#include <stdio.h>

#include "automaton.h"
#include "lines.h"
#include "memory.h"
#include "reader.h"

/* "22, more than 100,000 lines" */
enum { MOST_LINES = 100000, SMALL = 10 };

struct totals {
    uint64_t built, states, powers, few;
};

static bool is_letter(unsigned char byte)
{
    return (byte >= 'A' && byte <= 'Z') || (byte >= 'a' && byte <= 'z');
}

/* "letters" and entries of a text that is read, by its bytes: "`0`, `1` or a letter at its byte, a star at its `*`, a sign's
   entry at its `)`". */
static void count_bytes(const struct line *line, size_t *entries, size_t *letters)
{
    *entries = *letters = 0;
    for (size_t i = 0; i < line->length; i++) {
        unsigned char byte = line->bytes[i];
        *letters += is_letter(byte);
        *entries += is_letter(byte) || byte == '0' || byte == '1' || byte == '*' || byte == ')';
    }
}

static void report(const struct line *line, struct totals *totals)
{
    struct forest *forest = forest_new();
    struct automaton automaton;
    struct tree *root;
    struct refusal refusal = read_text(forest, line->bytes, line->length, &root);
    if (refusal.number == SUCCESS)
        refusal = build(forest, root, program_rooms, &automaton);
    if (refusal.number != SUCCESS) {
        print_refusal(refusal);
        return;
    }
    size_t entries, letters;
    count_bytes(line, &entries, &letters);
    printf("%zu %zu %zu %zu %zu\n", entries, letters, automaton.state_count, forest->count, automaton.arc_count);
    totals->built++;
    totals->states += automaton.state_count;
    if (letters <= SMALL) {
        totals->powers += UINT64_C(1) << letters;
        totals->few += automaton.state_count;
    }
}

int main(void)
{
    struct totals totals = { 0 };
    struct line line;
    size_t lines = 0;
    for (read_line(stdin, &line); line.found != NO_LINE; read_line(stdin, &line)) {
        if (lines++ == MOST_LINES) {
            print_refusal((struct refusal){ TOO_MANY_LINES, 0 });
            return written();
        }
        if (line.found == LONG_LINE) {
            pass_over_rest(stdin);
            print_refusal((struct refusal){ TEXT_TOO_LONG, 0 });
        } else {
            report(&line, &totals);
        }
        give_all_back();
    }
    printf("%" PRIu64 " %" PRIu64 " %" PRIu64 " %" PRIu64 "\n", totals.built, totals.states, totals.powers, totals.few);
    return written();
}
