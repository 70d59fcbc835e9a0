#include "texts.h"

#include <stdbool.h>
#include <string.h>

#include "lengths.h"
#include "random.h"
#include "try.h"

static void put(struct text *text, uint8_t byte)
{
    if (text->length < TEXT_ROOM)
        text->bytes[text->length++] = byte;
}

static void put_some(struct text *text, uint8_t byte, size_t times)
{
    while (times-- > 0)
        put(text, byte);
}

static uint8_t some_letter(void)
{
    return (uint8_t)((one_in(4) ? 'A' : 'a') + below(one_in(3) ? 26 : 3));
}

static void put_expression(struct text *text, size_t size)
{
    if (size <= 1) {
        put(text, one_in(6) ? '1' : some_letter());
    } else if (one_in(4)) {
        put_expression(text, size - 1);
        put(text, '*');
    } else {
        size_t left = between(1, size - 1);
        put(text, '(');
        put_expression(text, left);
        put(text, (uint8_t)"+.&"[below(3)]);
        put_expression(text, size - left);
        put(text, ')');
    }
}

void make_well_formed(struct text *text, size_t size)
{
    text->length = 0;
    put_expression(text, size);
}

/* One byte more, one less, another one, or the end cut off. */
static void damage(struct text *text)
{
    static const uint8_t likely[] = "01aZ()+.&*@[`{ \n";
    uint8_t byte = one_in(4) ? (uint8_t)draw() : likely[below(sizeof likely - 1)];
    size_t place = below(text->length + 1);
    size_t rest = text->length - place;
    if (one_in(4)) {
        text->length = place;
    } else if (one_in(3) && text->length < TEXT_ROOM) {
        memmove(text->bytes + place + 1, text->bytes + place, rest);
        text->bytes[place] = byte;
        text->length++;
    } else if (rest > 0 && one_in(2)) {
        memmove(text->bytes + place, text->bytes + place + 1, rest - 1);
        text->length--;
    } else if (rest > 0) {
        text->bytes[place] = byte;
    }
}

static void make_soup(struct text *text)
{
    static const uint8_t bytes[] = "01abc(((()))+.&**";
    bool any = one_in(2);
    text->length = 0;
    for (size_t length = below(30); length > 0; length--)
        put(text, any ? (uint8_t)draw() : bytes[below(sizeof bytes - 1)]);
}

static void make_deep(struct text *text, size_t depth)
{
    text->length = 0;
    put_some(text, '(', depth);
    put(text, 'a');
    for (size_t level = 0; level < depth; level++) {
        put(text, '+');
        put(text, 'b');
        put(text, ')');
    }
}

static void make_starred(struct text *text, size_t stars)
{
    text->length = 0;
    put(text, 'a');
    put_some(text, '*', stars);
}

/* As even a tree as may be, with that many letters: the least deep for its entries. */
static void put_even(struct text *text, size_t letters)
{
    if (letters == 1) {
        put(text, 'e');
        return;
    }
    put(text, '(');
    put_even(text, letters / 2);
    put(text, '.');
    put_even(text, letters - letters / 2);
    put(text, ')');
}

static size_t entries_in(const struct text *text)
{
    size_t entries = 0;
    for (size_t i = 0; i < text->length; i++)
        entries += text->bytes[i] != 0 && !strchr("(+.&", text->bytes[i]);
    return entries;
}

static void read_with(const struct text *text, size_t columns, size_t counts)
{
    struct read_lent lent;
    try_read(&(struct read_call){ text->bytes, text->length, columns, columns, columns, counts }, &lent);
}

/* A written text with every length of the columns that matters, and of `counts`. */
static void read_all_ways(const struct text *text)
{
    static const size_t counts[] = { 0, 1, 2, 3, 4, 5, 9, 100 };
    static const size_t columns[] = { 0, 1, 2, 511, 512, 513, 600, 70000 };
    size_t entries = entries_in(text);
    for (size_t i = 0; i < sizeof counts / sizeof *counts; i++)
        read_with(text, entries, counts[i]);
    for (size_t i = 0; i < sizeof columns / sizeof *columns; i++)
        read_with(text, columns[i], 4);
    read_with(text, entries > 0 ? entries - 1 : 0, 4);
    read_with(text, entries + 1, 4);
    struct read_lent lent;
    for (int which = 0; which < 3; which++)
        for (int counted = 3; counted < 5; counted++)
            try_read(&(struct read_call){ text->bytes, text->length, entries + (which == 0), entries + (which == 1),
                                          entries + (which == 2), (size_t)counted }, &lent);
}

/* 01, "At the limits", its examples, and texts that break the grammar in each place. */
static const char *const written[] = {
    "", "0", "1", "a", "Z", "a*", "(a.b)*", "(a&b)", "(a&a)", "(a&1)", "((a&b)&c)", "((a.b)&(c.d))", "((a+1)&(b+1))*",
    "(a)", "0*", "(a&b&c)", "(0+a)", "(a+0)", "00", "0a", "aa", "*", "a**", "(", ")", "a)", "(a", "(a+", "(a+b", "(a+b))",
    "(a+b)c", "(+a)", "(a-b)", " a", "a ", "a\n", "@", "[", "`", "{", "2", "((((a+b)", "()", "(a*+b*)*",
};

static void read_limits(void)
{
    struct text text;
    for (size_t depth = 63; depth <= 66; depth++) {
        make_deep(&text, depth);
        read_all_ways(&text);
    }
    for (size_t stars = 510; stars <= 513; stars++) {
        make_starred(&text, stars);
        read_all_ways(&text);
    }
    for (size_t length = 4095; length <= 4098; length++) {
        make_starred(&text, length - 1);
        read_all_ways(&text);
        text.length = 0;
        put_some(&text, '(', length);
        read_all_ways(&text);
        text.bytes[0] = 0;
        read_all_ways(&text);
    }
    for (size_t letters = 256; letters <= 257; letters++)
        for (size_t stars = 0; stars < 3; stars++) {
            text.length = 0;
            put_even(&text, letters);
            put_some(&text, '*', stars);
            read_all_ways(&text);
            put(&text, ')'); /* the last place that 13 can have */
            read_all_ways(&text);
        }
}

void read_aimed(void)
{
    struct text text;
    for (size_t i = 0; i < sizeof written / sizeof *written; i++) {
        text.length = strlen(written[i]);
        memcpy(text.bytes, written[i], text.length);
        read_all_ways(&text);
    }
    for (int byte = 0; byte < 256; byte++) {
        text.bytes[0] = (uint8_t)byte;
        text.length = 1;
        read_with(&text, 3, 4);
    }
    read_limits();
}

void read_random(void)
{
    struct text text;
    make_well_formed(&text, between(1, one_in(20) ? 300 : 24));
    if (one_in(6))
        make_soup(&text);
    else if (one_in(60))
        make_deep(&text, between(60, 70));
    for (size_t times = one_in(2) ? 0 : between(1, 3); times > 0; times--)
        damage(&text);
    if (one_in(60))
        put_some(&text, '*', between(4080, 4110) - text.length % 1000);
    size_t columns = one_in(6) ? between(505, 520) : some_length(entries_in(&text));
    struct read_call call = { text.bytes, text.length, columns, columns, columns, some_counts() };
    if (one_in(12))
        make_uneven((size_t *[]){ &call.kind_length, &call.left_length, &call.right_length }, 3);
    struct read_lent lent;
    try_read(&call, &lent);
}
