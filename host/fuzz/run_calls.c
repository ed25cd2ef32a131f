/* The start call and the step call (01, The run; 02, 2/13 and 3/13). */
#include "fuzz.h"

#include <string.h>

/* Where text, run and stack stand in the loan of a start and of a step. */
enum { START_TEXT = 0, START_RUN, STEP_TEXT = 7, STEP_RUN };

/* The run and its stack as the call left them. */
static void take_run(struct run *run, const struct lent *numbers, const struct lent *stack)
{
    memcpy(run->numbers, numbers->bytes, sizeof run->numbers);
    memcpy(run->stack.data, stack->bytes, run->stack.length);
}

static void lend_run(struct loan *loan, const struct bytes *text, const struct run *run)
{
    lend(loan, READ, "the text", text->data, text->length);
    lend_numbers(loan, WRITE, "the run", run->numbers, 5, sizeof *run->numbers);
    lend(loan, WRITE, "the stack", run->stack.data, run->stack.length);
}

/* ---- start */

/* 13, 8, 12; 0 where the run begins. */
static unsigned start_answer(uint64_t kind, uint64_t n, const struct bytes *text, const struct run *run)
{
    if (!is_kind(kind)) {
        return TROYMANTLE_UNKNOWN_CALLER;
    }
    if (n > most_entry(kind) || run->stack.length < 2 * (n + 1)) {
        return TROYMANTLE_START_REFUSED;
    }
    return is_entry(text, n) ? TROYMANTLE_ACCEPTED : TROYMANTLE_TEXT_MISMATCH;
}

uint64_t try_start(uint64_t kind, uint64_t n, const struct bytes *text, struct run *run)
{
    struct loan loan = {0};
    unsigned right = start_answer(kind, n, text, run);
    begin_call(START);
    lend_run(&loan, text, run);
    const struct lent *numbers = &loan.lents[START_RUN], *stack = &loan.lents[START_RUN + 1];
    uint64_t word = troymantle_start(kind, n, LENT(START_TEXT), LENT_NUMBERS(START_RUN), LENT(START_RUN + 1));
    end_call(word);
    check_loan(&loan);
    if (word != right) {
        fail("the answer is %#llx, and by 01 and 02 %u", (unsigned long long)word, right);
    }
    if (right == TROYMANTLE_ACCEPTED) {
        const uint16_t first[5] = {(uint16_t)n, 0, 1, 0, (uint16_t)kind};
        if (memcmp(numbers->bytes, first, sizeof first) != 0 || !are_zero(stack->bytes, 2) ||
            memcmp(stack->bytes + 2, stack->before + 2, stack->length - 2) != 0) {
            fail("the run does not begin as it must");
        }
    } else {
        must_be_unchanged(numbers);
        must_be_unchanged(stack);
    }
    take_run(run, numbers, stack);
    end_loan(&loan);
    return word;
}

/* ---- step */

/* 6, 12, 9, 'done' or 10; 0 where the row decides. */
static unsigned early_answer(const struct sheet *sheet, const struct bytes *text, const struct run *run,
                             const struct bytes *row)
{
    if (!is_sound(sheet)) {
        return TROYMANTLE_BROKEN_SHEET;
    }
    if (!is_entry(text, run->numbers[0])) {
        return TROYMANTLE_TEXT_MISMATCH;
    }
    if (!is_run(run, sheet->counts[0])) {
        return TROYMANTLE_BROKEN_RUN;
    }
    if (run->numbers[0] == run->numbers[1]) {
        return TROYMANTLE_DONE;
    }
    return is_row(row, run, text, sheet->counts[1]) ? 0 : TROYMANTLE_ROW_MISMATCH;
}

static bool has_length(const struct bytes *row, unsigned length)
{
    size_t k = 0;
    while (k < row->length / 2 && field(row->data, k) != length) {
        k++;
    }
    return k < row->length / 2;
}

/* One entry of the stack may be new, with a declared state: the first or the one behind those in use. */
static void check_stack(const struct sheet *sheet, const struct lent *stack, unsigned depth, unsigned depth_after)
{
    size_t at = depth_after == depth + 1 ? 2 * (size_t)depth : 0;
    bool written = depth_after == depth + 1 || depth_after == 1;
    size_t behind = written ? at + 2 : at;
    if (memcmp(stack->bytes, stack->before, at) != 0 ||
        memcmp(stack->bytes + behind, stack->before + behind, stack->length - behind) != 0) {
        fail("the stack has new entries beside the one of the move");
    }
    if (written && field(stack->bytes + at, 0) >= sheet->counts[0]) {
        fail("the stack has a state that is not declared");
    }
}

/* A token or a skip: over a length of the row, one move more, at most one state more or less, and of the same kind. */
static void check_move(const struct sheet *sheet, const struct run *run, const struct bytes *row, uint64_t word,
                       const struct loan *loan)
{
    uint16_t after[5];
    memcpy(after, loan->lents[STEP_RUN].bytes, sizeof after);
    const uint16_t *before = run->numbers;
    unsigned length = (unsigned)after[1] - before[1];
    if (after[0] != before[0] || after[1] <= before[1] || after[1] > after[0] || after[3] != before[3] + 1 ||
        after[4] != before[4] || !has_length(row, length)) {
        fail("the run's numbers do not fit the move");
    }
    if (after[2] != 1 && after[2] != before[2] - 1 && after[2] != before[2] && after[2] != before[2] + 1) {
        fail("the depth is %u after %u", after[2], before[2]);
    }
    if (TROYMANTLE_NUMBER(word) == TROYMANTLE_TOKEN &&
        (TROYMANTLE_B(word) != before[1] || TROYMANTLE_C(word) != length)) {
        fail("the token %#llx is not what the run moved over", (unsigned long long)word);
    }
    check_stack(sheet, &loan->lents[STEP_RUN + 1], before[2], after[2]);
}

static void check_step(const struct sheet *sheet, const struct bytes *text, const struct run *run,
                       const struct bytes *row, uint64_t word, const struct loan *loan)
{
    unsigned number = TROYMANTLE_NUMBER(word), right = early_answer(sheet, text, run, row);
    if (right != 0 ? word != right : number < TROYMANTLE_STOPPED || number > TROYMANTLE_TOKEN) {
        fail("the answer is %#llx; 01 and 02 have %u, or 257 to 260 for 0", (unsigned long long)word, right);
    }
    if (number != TROYMANTLE_TOKEN && word >> 16 != 0) {
        fail("the answer %#llx has values", (unsigned long long)word);
    }
    if (number == TROYMANTLE_TOKEN || number == TROYMANTLE_SKIP) {
        check_move(sheet, run, row, word, loan);
    } else {
        must_be_unchanged(&loan->lents[STEP_RUN]);
        must_be_unchanged(&loan->lents[STEP_RUN + 1]);
    }
}

void try_step(const struct sheet *sheet, const struct bytes *text, struct run *run, const struct bytes *row)
{
    struct loan loan = {0};
    begin_call(STEP);
    lend_sheet(&loan, sheet, READ);
    lend_run(&loan, text, run);
    lend(&loan, READ, "the row", row->data, row->length);
    uint64_t word = troymantle_step(LENT_SHEET, LENT(STEP_TEXT), LENT_NUMBERS(STEP_RUN), LENT(STEP_RUN + 1),
                                    LENT(STEP_RUN + 2));
    end_call(word);
    check_loan(&loan);
    check_step(sheet, text, run, row, word, &loan);
    take_run(run, &loan.lents[STEP_RUN], &loan.lents[STEP_RUN + 1]);
    end_loan(&loan);
}
