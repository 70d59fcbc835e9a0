/* The calls of gumpaleri_build. */
#include "../../include/gumpaleri.h"
#include "lengths.h"
#include "random.h"
#include "tables.h"
#include "tally.h"
#include "try.h"

static void build_with(const struct table *table, struct needs rooms, size_t counts)
{
    struct build_call call = call_with(table, rooms, counts);
    struct build_lent lent;
    try_build(&call, &lent);
}

static void write_table(struct table *table, size_t length, const uint16_t (*rows)[3])
{
    table->length = length;
    for (size_t i = 0; i < length; i++) {
        table->kind[i] = (uint8_t)rows[i][0];
        table->left[i] = rows[i][1];
        table->right[i] = rows[i][2];
    }
}

/* ---- Causes of refusal, planted at an entry */

static void plant_field(struct table *table, size_t entry)
{
    static const uint16_t wrong[] = { 0, 256, 257, 65535 };
    switch (between(1, 4)) {
    case 1: table->kind[entry] = LETTER; table->left[entry] = wrong[below(4)]; break;
    case 2: table->kind[entry] = LETTER; table->left[entry] = 97; table->right[entry] = (uint16_t)between(1, 65535); break;
    case 3: table->kind[entry] = STAR; table->right[entry] = (uint16_t)between(1, 65535); break;
    default:
        table->kind[entry] = (uint8_t)below(2);
        table->left[entry] = (uint16_t)(one_in(2) ? 0 : between(1, 65535));
        table->right[entry] = (uint16_t)(table->left[entry] && one_in(2) ? 0 : between(1, 65535));
        break;
    }
}

static void plant_child(struct table *table, size_t entry)
{
    uint16_t wrong = (uint16_t)(one_in(3) ? 65535 : one_in(2) ? entry : between(entry, 700));
    uint16_t right = (uint16_t)(entry > 0 ? below(entry) : 0);
    table->kind[entry] = (uint8_t)between(UNION, STAR);
    table->left[entry] = one_in(2) || table->kind[entry] == STAR ? wrong : right;
    table->right[entry] = table->kind[entry] == STAR ? 0 : table->left[entry] == wrong ? right : wrong;
}

/* Another child, so that one is named twice and one never. */
static void plant_name(struct table *table, size_t entry)
{
    while (entry > 0 && table->kind[entry] < UNION)
        entry--;
    if (entry == 0)
        return;
    table->left[entry] = (uint16_t)below(entry);
    if (table->kind[entry] != STAR && one_in(2))
        table->right[entry] = one_in(2) ? table->left[entry] : (uint16_t)below(entry);
}

static void plant(struct table *table)
{
    size_t entry = one_in(4) ? table->length - 1 : below(table->length);
    switch (below(7)) {
    case 0: table->kind[entry] = (uint8_t)(one_in(2) ? 7 : between(7, 255)); break;
    case 1: plant_field(table, entry); break;
    case 2: plant_child(table, entry); break;
    case 3:
        table->kind[entry] = EMPTY_LANGUAGE;
        table->left[entry] = table->right[entry] = 0;
        break;
    default: plant_name(table, entry); break;
    }
}

/* ---- Written calls */

/* Rooms that are exactly the need, and one less in each: "Refusal 9 is given exactly when a need exceeds its room." */
static void build_at_needs(const struct table *table)
{
    struct needs need = needs_of(table);
    build_with(table, need, 4);
    if (need.states == 0)
        return;
    build_with(table, (struct needs){ need.states - 1, need.expressions, need.arcs }, 4);
    build_with(table, (struct needs){ need.states, need.expressions - 1, need.arcs }, 4);
    if (need.arcs > 0)
        build_with(table, (struct needs){ need.states, need.expressions, need.arcs - 1 }, 4);
    build_with(table, (struct needs){ need.states + 1, need.expressions + 1, need.arcs + 1 }, 4);
    build_with(table, (struct needs){ 0, need.expressions, need.arcs }, 4);
    build_with(table, (struct needs){ need.states, 0, need.arcs }, 4);
    build_with(table, (struct needs){ need.states, need.expressions, 0 }, 4);
    build_with(table, (struct needs){ 0, 0, 0 }, 4);
}

static void build_uneven(const struct table *table)
{
    struct build_lent lent;
    for (size_t which = 0; which < 11; which++)
        for (size_t counts = 3; counts < 5; counts++)
            for (int less = 0; less < 2; less++) {
                struct build_call call = call_with(table, (struct needs){ 20, 30, 40 }, counts);
                size_t *const lengths[11] = { &call.kind_length, &call.left_length, &call.right_length, &call.xkind_length,
                                              &call.xleft_length, &call.xright_length, &call.expression_length,
                                              &call.accepting_length, &call.from_length, &call.letter_length,
                                              &call.to_length };
                if (less && *lengths[which] == 0)
                    continue;
                *lengths[which] += less ? (size_t)-1 : 1;
                try_build(&call, &lent);
            }
}

static const uint16_t empty_language[][3] = { { 0, 0, 0 } };
static const uint16_t empty_word[][3] = { { 1, 0, 0 } };
static const uint16_t star[][3] = { { 2, 97, 0 }, { 6, 0, 0 } };
static const uint16_t shuffle[][3] = { { 2, 97, 0 }, { 2, 98, 0 }, { 5, 0, 1 } };
static const uint16_t turned[][3] = { { 2, 98, 0 }, { 2, 97, 0 }, { 5, 1, 0 } };
static const uint16_t bare_shuffle[][3] = { { 2, 1, 0 }, { 1, 0, 0 }, { 5, 0, 1 } };
static const uint16_t last_letters[][3] = { { 2, 255, 0 }, { 2, 1, 0 }, { 4, 0, 1 }, { 6, 2, 0 } };
static const uint16_t two_of_four[][3] = { { 2, 97, 0 }, { 1, 0, 0 }, { 3, 0, 1 }, { 2, 98, 0 }, { 1, 0, 0 }, { 3, 3, 4 },
                                           { 5, 2, 5 }, { 6, 6, 0 } };
static const uint16_t kind_seven[][3] = { { 2, 97, 0 }, { 2, 98, 0 }, { 7, 0, 1 } };
static const uint16_t no_letter[][3] = { { 2, 0, 0 } };
static const uint16_t big_letter[][3] = { { 2, 256, 0 } };
static const uint16_t field_and_inside[][3] = { { 0, 1, 0 }, { 6, 0, 0 } };
static const uint16_t own_child[][3] = { { 2, 97, 0 }, { 3, 0, 1 } };
static const uint16_t inside[][3] = { { 0, 0, 0 }, { 6, 0, 0 } };
static const uint16_t root_inside[][3] = { { 2, 97, 0 }, { 0, 0, 0 } };
static const uint16_t never_named[][3] = { { 2, 97, 0 }, { 2, 98, 0 } };
static const uint16_t twice_named[][3] = { { 2, 97, 0 }, { 5, 0, 0 } };

#define ROWS(name) { sizeof(name) / sizeof *(name), name }

static const struct {
    size_t length;
    const uint16_t (*rows)[3];
} written[] = {
    ROWS(empty_language), ROWS(empty_word), ROWS(star), ROWS(shuffle), ROWS(turned), ROWS(bare_shuffle), ROWS(last_letters),
    ROWS(two_of_four), ROWS(kind_seven), ROWS(no_letter), ROWS(big_letter), ROWS(field_and_inside), ROWS(own_child),
    ROWS(inside), ROWS(root_inside), ROWS(never_named), ROWS(twice_named),
};

/* Unions of the empty word and a few letters; 512 is the most that a table may have. */
static void make_long(struct table *table, size_t length)
{
    table->length = length;
    for (size_t i = 0; i < length; i++) {
        bool leaf = i % 2 == 1 || i == 0;
        table->kind[i] = (uint8_t)(!leaf ? UNION : i % 100 == 1 ? LETTER : EMPTY_WORD);
        table->left[i] = (uint16_t)(!leaf ? i - 2 : table->kind[i] == LETTER ? 'a' + i / 100 : 0);
        table->right[i] = (uint16_t)(leaf ? 0 : i - 1);
    }
    if (length % 2 == 0 && length > 0) {
        table->kind[length - 1] = STAR;
        table->left[length - 1] = (uint16_t)(length - 2);
    }
}

/* Columns that are only read may be the same: here left and right are one column. */
static void build_overlapping(void)
{
    struct table table = { .kind = { EMPTY_WORD, EMPTY_WORD, SHUFFLE }, .length = 3 };
    for (size_t length = 1; length <= 3; length++) {
        table.length = length;
        struct build_call call = call_with(&table, (struct needs){ 4, 4, 4 }, 4);
        call.right = call.left;
        struct build_lent lent;
        try_build(&call, &lent);
    }
}

void build_aimed(void)
{
    static const size_t lengths[] = { 0, 1, 2, 3, 100, 511, 512, 513, 514, TABLE_ROOM - 1 };
    static const size_t counts[] = { 0, 1, 2, 3, 4, 5, 9, 100 };
    struct table table = { .length = 0 };
    for (size_t i = 0; i < sizeof written / sizeof *written; i++) {
        write_table(&table, written[i].length, written[i].rows);
        build_at_needs(&table);
        build_uneven(&table);
        for (size_t j = 0; j < sizeof counts / sizeof *counts; j++)
            build_with(&table, needs_of(&table), counts[j]);
    }
    build_overlapping();
    for (size_t i = 0; i < sizeof lengths / sizeof *lengths; i++) {
        make_long(&table, lengths[i]);
        build_at_needs(&table);
        build_uneven(&table);
    }
}

/* All letters shuffled: as many states as the letters have sets. */
static void make_shuffle(struct table *table, size_t letters)
{
    table->length = 2 * letters - 1;
    for (size_t i = 0; i < table->length; i++) {
        bool leaf = i % 2 == 1 || i == 0;
        table->kind[i] = leaf ? LETTER : SHUFFLE;
        table->left[i] = (uint16_t)(leaf ? 200 - i : i - 2);
        table->right[i] = (uint16_t)(leaf ? 0 : i - 1);
    }
}

void build_large(void)
{
    struct table table;
    write_table(&table, sizeof shuffle / sizeof *shuffle, shuffle);
    for (size_t over = 0; over < 2; over++) {
        build_with(&table, (struct needs){ 65535 + over, 65535 + over, 16777216 + over }, 4);
        build_with(&table, (struct needs){ 65535 + over, 3, 65536 }, 100);
    }
    make_shuffle(&table, 10);
    build_at_needs(&table);
}

static size_t put_sign(struct table *table, uint8_t sign, size_t left, size_t right)
{
    table->kind[table->length] = sign;
    table->left[table->length] = (uint16_t)left;
    table->right[table->length] = (uint16_t)right;
    return table->length++;
}

/* That many letters one after the other, with the last one deepest, so that what is left of them is a part of the whole. */
static size_t put_chain(struct table *table, size_t letters, size_t first)
{
    size_t rest = put_sign(table, LETTER, first, 0);
    for (size_t i = 1; i < letters; i++) {
        size_t leaf = put_sign(table, LETTER, first + i, 0);
        rest = put_sign(table, CONCATENATION, leaf, rest);
    }
    return rest;
}

/* Three chains shuffled, 39 times 39 times 43 states, and as many stars over an empty word as bring the expressions to the
   number that is wanted: a star is an expression more, and no state.  Without a star they are 65,519. */
static void make_wanted(struct table *table, size_t stars)
{
    *table = (struct table){ .length = 0 };
    size_t one = put_chain(table, 38, 1), two = put_chain(table, 38, 60), three = put_chain(table, 42, 120);
    size_t all = put_sign(table, SHUFFLE, put_sign(table, SHUFFLE, one, two), three);
    size_t starred = put_sign(table, EMPTY_WORD, 0, 0);
    while (stars-- > 0)
        starred = put_sign(table, STAR, starred, 0);
    put_sign(table, UNION, all, starred);
}

/* "65,535 for expressions": a need of exactly that many, and of one more, in columns that would hold it.  This takes minutes. */
void build_limits(void)
{
    struct table table;
    make_wanted(&table, 0);
    size_t least = needs_of(&table).expressions;
    for (size_t over = 0; over < 2; over++) {
        make_wanted(&table, 65535 + over - least);
        struct build_call call = call_with(&table, (struct needs){ 70000, 70000, 300000 }, 4);
        struct build_lent lent;
        if (try_build(&call, &lent) != (over ? GUMPALERI_ROOM_SMALL : GUMPALERI_SUCCESS))
            differs("this is not the limit");
    }
}

/* ---- Random calls */

static size_t some_leaves(void)
{
    return one_in(150) ? between(8, 10) : one_in(8) ? between(5, 7) : between(1, 5);
}

static void disturb(struct build_call *call)
{
    if (one_in(20))
        make_uneven((size_t *[]){ &call->kind_length, &call->left_length, &call->right_length }, 3);
    if (one_in(20))
        make_uneven((size_t *[]){ &call->xkind_length, &call->xleft_length, &call->xright_length, &call->expression_length,
                                  &call->accepting_length, &call->from_length, &call->letter_length, &call->to_length }, 8);
    if (one_in(40))
        call->kind_length = call->left_length = call->right_length = one_in(2) ? 0 : between(505, 520);
}

/* "columns of these lengths are always enough: no such expression is refused for room" */
static void build_in_sizes(const struct table *table)
{
    size_t n = table->length, m = 0;
    for (size_t entry = 0; entry < n; entry++)
        m += table->kind[entry] == LETTER;
    if (m > 5) /* larger columns take their time */
        return;
    struct build_call call = call_with(table, (struct needs){ GUMPALERI_STATES(m), GUMPALERI_EXPRESSIONS(n, m),
                                                              GUMPALERI_ARCS(m) }, GUMPALERI_COUNTS);
    struct build_lent lent;
    if (try_build(&call, &lent) != GUMPALERI_SUCCESS)
        differs("the header's sizes are not enough");
}

void build_random(void)
{
    struct table table = { .length = 0 };
    if (one_in(25))
        make_long(&table, between(250, 512)); /* places that 8 bits do not hold */
    else
        make_table(&table, some_leaves());
    if (one_in(10))
        build_in_sizes(&table);
    if (one_in(2))
        for (size_t times = between(1, 3); times > 0; times--)
            plant(&table);
    struct needs need = needs_of(&table), rooms = need;
    if (need.states == 0 && one_in(2))
        rooms = (struct needs){ below(20), below(30), below(40) };
    if (one_in(3))
        rooms.states = some_length(need.states);
    if (one_in(3))
        rooms.expressions = some_length(need.expressions);
    if (one_in(3))
        rooms.arcs = some_length(need.arcs);
    struct build_call call = call_with(&table, rooms, some_counts());
    disturb(&call);
    struct build_lent lent;
    try_build(&call, &lent);
}
