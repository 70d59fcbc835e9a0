#include "tables.h"

#include "../../peer/memory.h"
#include "random.h"

static size_t put_entry(struct table *table, uint8_t kind, size_t left, size_t right)
{
    table->kind[table->length] = kind;
    table->left[table->length] = (uint16_t)left;
    table->right[table->length] = (uint16_t)right;
    return table->length++;
}

/* Entries that no entry names yet. */
struct unnamed {
    size_t entries[TABLE_ROOM], count;
};

static size_t take(struct unnamed *unnamed)
{
    size_t at = below(unnamed->count);
    size_t entry = unnamed->entries[at];
    unnamed->entries[at] = unnamed->entries[--unnamed->count];
    return entry;
}

static size_t put_leaf(struct table *table, const uint8_t *letters, size_t letter_count)
{
    if (one_in(7))
        return put_entry(table, EMPTY_WORD, 0, 0);
    return put_entry(table, LETTER, letters[below(letter_count)], 0);
}

void make_table(struct table *table, size_t leaves)
{
    uint8_t letters[6];
    size_t letter_count = between(1, 6), stars = below(4);
    for (size_t i = 0; i < letter_count; i++)
        letters[i] = one_in(10) ? (one_in(2) ? 1 : 255) : (uint8_t)between(1, 255);
    struct unnamed unnamed = { .count = 0 };
    table->length = 0;
    while (leaves > 0 || unnamed.count > 1 || (stars > 0 && one_in(2))) {
        size_t made;
        if (unnamed.count > 0 && stars > 0 && one_in(4)) {
            stars--;
            made = put_entry(table, STAR, take(&unnamed), 0);
        } else if (unnamed.count > 1 && (leaves == 0 || one_in(2))) {
            size_t left = take(&unnamed), right = take(&unnamed);
            made = put_entry(table, (uint8_t)between(UNION, SHUFFLE), left, right);
        } else if (leaves > 0) {
            leaves--;
            made = put_leaf(table, letters, letter_count);
        } else {
            continue;
        }
        unnamed.entries[unnamed.count++] = made;
    }
}

struct build_call call_with(const struct table *table, struct needs rooms, size_t counts)
{
    return (struct build_call){
        table->kind, table->length, table->left, table->length, table->right, table->length,
        rooms.expressions, rooms.expressions, rooms.expressions, rooms.states, rooms.states,
        rooms.arcs, rooms.arcs, rooms.arcs, counts,
    };
}

struct needs needs_of(const struct table *table)
{
    struct build_call call = call_with(table, (struct needs){ 65535, 65535, 16777216 }, 4);
    struct told told = expect_build(&call).told;
    give_all_back();
    return (struct needs){ told.counts[0], told.counts[1], told.counts[2] };
}
