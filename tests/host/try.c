#include "try.h"

#include "../../include/gumpaleri.h"
#include "../../peer/memory.h"
#include "lend.h"
#include "tally.h"

static uint32_t ended(uint64_t answer)
{
    give_all_back();
    call_ended(gumpaleri_number(answer));
    return gumpaleri_number(answer);
}

uint32_t try_read(const struct read_call *call, struct read_lent *lent)
{
    call_begins(OF_READ, "text %zu, columns %zu %zu %zu, counts %zu", call->text_length, call->kind_length,
                call->left_length, call->right_length, call->counts_length);
    begin_lending();
    const uint8_t *text = lend_to_read("text", call->text, call->text_length);
    lent->kind = lend_to_write("kind", call->kind_length);
    lent->left = lend_to_write("left", call->left_length * sizeof(uint16_t));
    lent->right = lend_to_write("right", call->right_length * sizeof(uint16_t));
    lent->counts = lend_to_write("counts", call->counts_length * sizeof(uint64_t));
    uint64_t answer = gumpaleri_read(text, call->text_length, lent->kind, call->kind_length, lent->left, call->left_length,
                                     lent->right, call->right_length, lent->counts, call->counts_length);
    hold_lent();
    hold_read(call, lent, answer);
    return ended(answer);
}

static void lend_rooms(const struct build_call *call, struct build_lent *lent)
{
    lent->xkind = lend_to_write("xkind", call->xkind_length);
    lent->xleft = lend_to_write("xleft", call->xleft_length * sizeof(uint16_t));
    lent->xright = lend_to_write("xright", call->xright_length * sizeof(uint16_t));
    lent->expression = lend_to_write("expression", call->expression_length * sizeof(uint16_t));
    lent->accepting = lend_to_write("accepting", call->accepting_length);
    lent->from = lend_to_write("from", call->from_length * sizeof(uint16_t));
    lent->letter = lend_to_write("letter", call->letter_length);
    lent->to = lend_to_write("to", call->to_length * sizeof(uint16_t));
    lent->counts = lend_to_write("counts", call->counts_length * sizeof(uint64_t));
}

uint32_t try_build(const struct build_call *call, struct build_lent *lent)
{
    call_begins(OF_BUILD, "table %zu %zu %zu, expressions %zu %zu %zu, states %zu %zu, arcs %zu %zu %zu, counts %zu",
                call->kind_length, call->left_length, call->right_length, call->xkind_length, call->xleft_length,
                call->xright_length, call->expression_length, call->accepting_length, call->from_length,
                call->letter_length, call->to_length, call->counts_length);
    begin_lending();
    const uint8_t *kind = lend_to_read("kind", call->kind, call->kind_length);
    const uint16_t *left = lend_to_read("left", call->left, call->left_length * sizeof *left);
    const uint16_t *right = lend_to_read("right", call->right, call->right_length * sizeof *right);
    lend_rooms(call, lent);
    uint64_t answer = gumpaleri_build(
        kind, call->kind_length, left, call->left_length, right, call->right_length,
        lent->xkind, call->xkind_length, lent->xleft, call->xleft_length, lent->xright, call->xright_length,
        lent->expression, call->expression_length, lent->accepting, call->accepting_length,
        lent->from, call->from_length, lent->letter, call->letter_length, lent->to, call->to_length,
        lent->counts, call->counts_length);
    hold_lent();
    hold_build(call, lent, answer);
    return ended(answer);
}

uint32_t try_judge(const struct judge_call *call)
{
    call_begins(OF_JUDGE, "states %zu of %zu, arcs %zu of %zu %zu %zu, record %zu, work %zu %zu, counts %zu", call->states,
                call->accepting_length, call->arcs, call->from_length, call->letter_length, call->to_length,
                call->record_length, call->current_length, call->next_length, call->counts_length);
    begin_lending();
    const uint8_t *accepting = lend_to_read("accepting", call->accepting, call->accepting_length);
    const uint16_t *from = lend_to_read("from", call->from, call->from_length * sizeof *from);
    const uint8_t *letter = lend_to_read("letter", call->letter, call->letter_length);
    const uint16_t *to = lend_to_read("to", call->to, call->to_length * sizeof *to);
    const uint8_t *record = lend_to_read("record", call->record, call->record_length);
    struct judge_lent lent;
    lent.current = lend_to_write("current", call->current_length * sizeof(uint64_t));
    lent.next = lend_to_write("next", call->next_length * sizeof(uint64_t));
    lent.counts = lend_to_write("counts", call->counts_length * sizeof(uint64_t));
    uint64_t answer = gumpaleri_judge(
        call->states, accepting, call->accepting_length, call->arcs, from, call->from_length, letter, call->letter_length,
        to, call->to_length, record, call->record_length, lent.current, call->current_length, lent.next,
        call->next_length, lent.counts, call->counts_length);
    hold_lent();
    hold_judge(call, &lent, answer);
    if (gumpaleri_number(answer) == GUMPALERI_SUCCESS)
        verdict_met(lent.counts[GUMPALERI_VERDICT_AT]);
    return ended(answer);
}
