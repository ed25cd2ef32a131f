/* The calls for line and column (02, 1/13). */
#include "fuzz.h"

#include <string.h>

/* Where source and place stand in the loan. */
enum { SOURCE, PLACE_NUMBERS };

/* 1, 3; 0 where the source is read. */
static unsigned refusal(const struct bytes *source)
{
    if (source->length > 65535) {
        return TROYMANTLE_LONG_FILE;
    }
    return is_utf8(source->data, source->length) ? 0 : TROYMANTLE_INVALID_UTF8;
}

static void expect_word(uint64_t word, uint64_t right)
{
    if (word != right) {
        fail("the answer is %#llx, and by 02 %#llx", (unsigned long long)word, (unsigned long long)right);
    }
}

/* ---- line_column */

/* Accepted, the place is what the call left. */
static uint64_t try_line_column(const struct bytes *source, unsigned refused, uint64_t offset, uint32_t place[2])
{
    struct loan loan = {0};
    struct place right = refused == 0 ? place_up_to(source, offset) : FIRST_PLACE;
    uint32_t before[2] = {(uint32_t)random_word(), (uint32_t)random_word()};
    begin_call(LINE_COLUMN);
    lend(&loan, READ, "the source", source->data, source->length);
    lend_numbers(&loan, WRITE, "the place", before, 2, sizeof *before);
    uint64_t word = troymantle_line_column(LENT(SOURCE), offset, LENT_PLACE(PLACE_NUMBERS));
    end_call(word);
    check_loan(&loan);
    expect_word(word, refused != 0 ? refused : right.offset == offset ? 0 : TROYMANTLE_NO_SUCH_PLACE);
    memcpy(place, loan.lents[PLACE_NUMBERS].bytes, sizeof before);
    if (word != TROYMANTLE_ACCEPTED) {
        must_be_unchanged(&loan.lents[PLACE_NUMBERS]);
    } else if (place[0] != right.line || place[1] != right.column) {
        fail("offset %llu has the place %u:%u, and by 02 %llu:%llu", (unsigned long long)offset, place[0], place[1],
             (unsigned long long)right.line, (unsigned long long)right.column);
    }
    end_loan(&loan);
    return word;
}

/* ---- offset_at */

static uint64_t try_offset_at(const struct bytes *source, unsigned refused, uint64_t line, uint64_t column)
{
    struct loan loan = {0};
    uint64_t offset = 0, right = refused;
    if (refused == 0) {
        right = find_offset(source, line, column, &offset) ? offset << 16 : TROYMANTLE_NO_SUCH_PLACE;
    }
    begin_call(OFFSET_AT);
    lend(&loan, READ, "the source", source->data, source->length);
    uint64_t word = troymantle_offset_at(LENT(SOURCE), line, column);
    end_call(word);
    check_loan(&loan);
    expect_word(word, right);
    end_loan(&loan);
    return word;
}

/* ---- there and back, and back and there */

static void try_offset(const struct bytes *source, unsigned refused)
{
    uint32_t place[2];
    uint64_t offset = choose_offset(source);
    if (try_line_column(source, refused, offset, place) == TROYMANTLE_ACCEPTED &&
        try_offset_at(source, refused, place[0], place[1]) != offset << 16) {
        fail("there and back is not where it began");
    }
}

static void try_pair(const struct bytes *source, unsigned refused)
{
    uint32_t place[2];
    uint64_t pair[2];
    choose_pair(source, refused == 0, pair);
    uint64_t word = try_offset_at(source, refused, pair[0], pair[1]);
    if (TROYMANTLE_NUMBER(word) == TROYMANTLE_ACCEPTED &&
        (try_line_column(source, refused, TROYMANTLE_A(word), place) != TROYMANTLE_ACCEPTED || place[0] != pair[0] ||
         place[1] != pair[1])) {
        fail("back and there is not where it began");
    }
}

void try_places(const struct bytes *source, size_t tries)
{
    unsigned refused = refusal(source);
    for (size_t k = 0; k < tries; k++) {
        try_offset(source, refused);
        try_pair(source, refused);
    }
}
