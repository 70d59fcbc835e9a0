/*
 * How much stack each call takes for a text, return address and arguments with it.
 *
 *   cc -O2 -static -Iinclude -o target/stack bench/stack.c target/libgumpaleri.a && target/stack '(a.(b.(c.d)))*'
 *
 * A call is made on a stack of its own, which is painted before; how far down the paint is gone afterwards is what it took.  Linked
 * with -static, since else the first memset of a process is looked up on that stack.
 */
#include <stdio.h>
#include <string.h>
#include <ucontext.h>

#include "gumpaleri.h"

#define LENT(column) (column), sizeof(column) / sizeof *(column)
#define PAINT 0xa5

enum { EXPRESSIONS = 65535, STATES = 4096, ARCS = 65536, STACK = 1 << 20 };

static uint8_t kind[GUMPALERI_MOST_ENTRIES], xkind[EXPRESSIONS], accepting[STATES], letter[ARCS];
static uint16_t left[GUMPALERI_MOST_ENTRIES], right[GUMPALERI_MOST_ENTRIES], xleft[EXPRESSIONS], xright[EXPRESSIONS];
static uint16_t expression[STATES], from[ARCS], to[ARCS];
static uint64_t current[GUMPALERI_WORDS(STATES)], next[GUMPALERI_WORDS(STATES)];
static uint64_t entered[GUMPALERI_COUNTS], built[GUMPALERI_COUNTS], verdict[GUMPALERI_COUNTS], answer;
static const char *text;

static void nothing(void)
{
}

static void reading(void)
{
    answer = gumpaleri_read((const uint8_t *)text, strlen(text), LENT(kind), LENT(left), LENT(right), LENT(entered));
}

static void building(void)
{
    size_t entries = entered[GUMPALERI_ENTRIES_AT];

    answer = gumpaleri_build(kind, entries, left, entries, right, entries, LENT(xkind), LENT(xleft), LENT(xright), LENT(expression),
                             LENT(accepting), LENT(from), LENT(letter), LENT(to), LENT(built));
}

static void judging(void)
{
    answer = gumpaleri_judge(built[GUMPALERI_STATES_AT], LENT(accepting), built[GUMPALERI_ARCS_AT], LENT(from), LENT(letter),
                             LENT(to), (const uint8_t *)"abcd", 4, LENT(current), LENT(next), LENT(verdict));
}

/* How many bytes of a painted stack a function touches. */
static size_t touched(void (*function)(void))
{
    static unsigned char stack[STACK];
    static ucontext_t here, there;
    size_t whole = 0;

    memset(stack, PAINT, STACK);
    getcontext(&there);
    there.uc_stack.ss_sp = stack;
    there.uc_stack.ss_size = STACK;
    there.uc_link = &here;
    makecontext(&there, function, 0);
    swapcontext(&here, &there);
    while (whole < STACK && stack[whole] == PAINT)
        whole++;
    return STACK - whole;
}

static void show(const char *name, void (*function)(void))
{
    size_t took = touched(function) - touched(nothing);

    printf("%s %zu", name, took);
    if (gumpaleri_number(answer) != GUMPALERI_SUCCESS)
        printf(" (refused %u %u)", (unsigned)gumpaleri_number(answer), (unsigned)gumpaleri_place(answer));
}

int main(int count, char **words)
{
    text = count > 1 ? words[1] : "1";
    show("read", reading);
    show(", build", building);
    show(", judge", judging);
    printf("\n");
    return 0;
}
