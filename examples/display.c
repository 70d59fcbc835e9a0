/*
 * A display unit: it takes the text of a site from its manual, builds it in static columns, judges lines of events, and says every
 * answer in words. docs/GUIDE.md, part 6, is about programs like this one; examples/README.md says what is handed to it.
 */
#include <stdio.h>
#include <string.h>

#include "gumpaleri.h"

/*
 * ---- The room. Whatever text has at most N entries, at most M of them letters, can be built in it. When the site is known, less is
 * enough: ./run rooms prints what it needs, for the site below 8 states, 25 expressions and 16 arcs.
 */

#define N 13
#define M 6

/* A column as the calls take it: where it is and how many elements it has. */
#define LENT(column) (column), sizeof(column) / sizeof *(column)

/* The expression table of the text. */
static uint8_t kind[N];
static uint16_t left[N], right[N];

/* The expressions: room that the build works in. Nothing needs it afterwards. */
static uint8_t xkind[GUMPALERI_EXPRESSIONS(N, M)];
static uint16_t xleft[GUMPALERI_EXPRESSIONS(N, M)], xright[GUMPALERI_EXPRESSIONS(N, M)];

/* The automaton: its states, its arcs, and how many there are of them. While no site is built all its counts are 0. */
static uint16_t expression[GUMPALERI_STATES(M)];
static uint8_t accepting[GUMPALERI_STATES(M)];
static uint16_t from[GUMPALERI_ARCS(M)], to[GUMPALERI_ARCS(M)];
static uint8_t letter[GUMPALERI_ARCS(M)];
static uint64_t site[GUMPALERI_COUNTS];

/* ---- The checking. It takes no memory but the columns, and prints nothing. */

/* Builds the site of a text. The answer is 0, or the refusal of the call that refused; then no site is built. */
static uint64_t take_site(const char *text)
{
    uint64_t answer = gumpaleri_read((const uint8_t *)text, strlen(text), LENT(kind), LENT(left), LENT(right), LENT(site));
    size_t entries = site[GUMPALERI_ENTRIES_AT];

    if (gumpaleri_number(answer) != GUMPALERI_SUCCESS)
        return answer;
    return gumpaleri_build(kind, entries, left, entries, right, entries, LENT(xkind), LENT(xleft), LENT(xright),
                           LENT(expression), LENT(accepting), LENT(from), LENT(letter), LENT(to), LENT(site));
}

/* Judges a line of events against the site. `verdict` has GUMPALERI_COUNTS numbers. */
static uint64_t judge_line(const char *line, uint64_t *verdict)
{
    static uint64_t current[GUMPALERI_WORDS(GUMPALERI_STATES(M))], next[GUMPALERI_WORDS(GUMPALERI_STATES(M))];

    return gumpaleri_judge(site[GUMPALERI_STATES_AT], LENT(accepting), site[GUMPALERI_ARCS_AT], LENT(from), LENT(letter), LENT(to),
                           (const uint8_t *)line, strlen(line), LENT(current), LENT(next), verdict, GUMPALERI_COUNTS);
}

/* ---- The display. */

static const char *refusal_in_words(uint64_t answer)
{
    switch (gumpaleri_number(answer)) {
    case GUMPALERI_ROOM_SMALL: return "the site needs more states, expressions or arcs than this unit has";
    case GUMPALERI_AUTOMATON_MALFORMED: return "no site is built";
    case GUMPALERI_TEXT_LONG: return "the text is too long";
    case GUMPALERI_NOT_GRAMMAR: return "this cannot stand here";
    case GUMPALERI_TOO_DEEP: return "too many parentheses are open";
    case GUMPALERI_TOO_MANY_ENTRIES: return "the text has more entries than this unit has room for";
    default: return "the calls are not used as they should be";
    }
}

static void show_site(const char *text)
{
    uint64_t answer = take_site(text);

    printf("site %s\n", text);
    if (gumpaleri_number(answer) != GUMPALERI_SUCCESS)
        printf("     %*s^ refused (%u): %s\n", (int)gumpaleri_place(answer), "", (unsigned)gumpaleri_number(answer),
               refusal_in_words(answer));
    else
        printf("     built with %u of %u states, %u of %u expressions, %u of %u arcs\n",
               (unsigned)site[GUMPALERI_STATES_AT], (unsigned)GUMPALERI_STATES(M),
               (unsigned)site[GUMPALERI_EXPRESSIONS_AT], (unsigned)GUMPALERI_EXPRESSIONS(N, M),
               (unsigned)site[GUMPALERI_ARCS_AT], (unsigned)GUMPALERI_ARCS(M));
}

static void show_line(const char *line)
{
    uint64_t verdict[GUMPALERI_COUNTS];
    uint64_t answer = judge_line(line, verdict);
    unsigned wrong = (unsigned)verdict[GUMPALERI_WRONG_AT];

    printf("line %-8s ", line);
    if (gumpaleri_number(answer) != GUMPALERI_SUCCESS)
        printf("refused (%u): %s\n", (unsigned)gumpaleri_number(answer), refusal_in_words(answer));
    else if (verdict[GUMPALERI_VERDICT_AT] == GUMPALERI_ACCEPTED)
        printf("accepted\n");
    else if (verdict[GUMPALERI_VERDICT_AT] == GUMPALERI_UNFINISHED)
        printf("unfinished: more events have to follow\n");
    else
        printf("wrong: event %u, counted from 0, cannot be %c\n", wrong, line[wrong]);
}

/* The pump is started (a), primed (b), running (c) and stopped (d); the valve is opened (q) and closed (r). */
int main(void)
{
    show_site("((a.(b.(c.d))*&(q.r)*)");          /* a parenthesis is missing */
    show_line("abcd");
    show_site("((a.(b.(c.d)))*&(e.(f.(g.h)))*)"); /* two pumps: 17 entries */
    show_site("((a.(b.(c.d)))*&(q.r)*)");
    show_line("abcd");
    show_line("qabcdr");
    show_line("abqcrdab");
    show_line("");
    show_line("abcdq");
    show_line("acbd");
    show_line("abqcqd");
    show_line("abcdx");
    return 0;
}
