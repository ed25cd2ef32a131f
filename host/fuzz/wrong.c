/* The wrong libraries of wrong.h; nothing of this is built but for the self-test. */
#ifdef SELF_TEST
#define WRONG_C
#include "fuzz.h"

#include <stdio.h>
#include <string.h>

#define WRONG_NAME(name) #name,
static const char *const NAMES[] = {"", WRONG_LIBRARIES(WRONG_NAME)};
static enum wrong_library wrong;

void print_wrong_libraries(void)
{
    for (size_t k = 1; k < WRONG_END; k++) {
        puts(NAMES[k]);
    }
}

bool choose_wrong_library(const char *name)
{
    for (size_t k = 1; k < WRONG_END; k++) {
        if (strcmp(NAMES[k], name) == 0) {
            wrong = (enum wrong_library)k;
        }
    }
    return wrong != NOT_WRONG;
}

/* Whether this library is the one that was chosen, and what it goes by holds. */
static bool is_chosen(enum wrong_library library, bool holds)
{
    return wrong == library && holds;
}

static void write_byte(const uint8_t *at)
{
    uint8_t *byte = (uint8_t *)at;
    *byte = (uint8_t)(*byte ^ 255);
}

static void read_byte(const uint8_t *at)
{
    (void)*(const volatile uint8_t *)at;
}

/* The word with another number and no values. */
static uint64_t instead(uint64_t word, unsigned number, unsigned other)
{
    return TROYMANTLE_NUMBER(word) == number ? other : word;
}

#define BYTES(name) const uint8_t *name, size_t name##_length
#define AREA(name) uint8_t *name, size_t name##_length
#define GIVEN(name) name, name##_length
#define SHEET_BEHIND_AREA_2 BYTES(area3), BYTES(area4), BYTES(area5), const uint16_t counts[6]
#define GIVEN_SHEET GIVEN(source), GIVEN(area1), GIVEN(area2), GIVEN(area3), GIVEN(area4), GIVEN(area5), counts

/* ---- parse */

static uint64_t wrong_parse_word(uint64_t word)
{
    switch (wrong) {
    case parse_tests_text_before_flags:
        return instead(word, TROYMANTLE_UNKNOWN_FLAG, TROYMANTLE_INVALID_UTF8);
    case parse_takes_invalid_text:
        return instead(word, TROYMANTLE_INVALID_UTF8, TROYMANTLE_AREA_FULL | 1 << 16);
    case parse_names_another_area:
        return instead(word, TROYMANTLE_AREA_FULL, TROYMANTLE_AREA_FULL | (TROYMANTLE_A(word) % 6 + 1u) << 16);
    default:
        return word;
    }
}

/* What is read and written outside of what was lent, or is no business of a parse. */
static void touch_in_parse(BYTES(source), const uint8_t *verdicts, const uint8_t *area1, const uint8_t *behind_area3)
{
    if (is_chosen(parse_writes_behind_area_3, true)) {
        write_byte(behind_area3);
    } else if (is_chosen(parse_writes_before_area_1, true)) {
        write_byte(area1 - 1);
    } else if (is_chosen(parse_writes_the_source, source_length > 0)) {
        write_byte(source + source_length - 1);
    } else if (is_chosen(parse_reads_behind_the_source, true)) {
        read_byte(source + source_length);
    } else if (is_chosen(parse_reads_before_the_verdicts, true)) {
        read_byte(verdicts - 1);
    }
}

uint64_t wrong_parse(BYTES(source), uint64_t flags, BYTES(verdicts), AREA(area1), AREA(area2), AREA(area3), AREA(area4),
                     AREA(area5), AREA(area6), uint16_t counts[6])
{
    bool is_old = is_chosen(parse_goes_by_old_bytes, area5_length > 0 && area5[0] % 4 == 1);
    uint64_t word = troymantle_parse(GIVEN(source), flags, GIVEN(verdicts), GIVEN(area1), GIVEN(area2), GIVEN(area3),
                                     GIVEN(area4), GIVEN(area5), GIVEN(area6), counts);
    unsigned number = TROYMANTLE_NUMBER(word);
    touch_in_parse(GIVEN(source), verdicts, area1, area3 + area3_length);
    if (is_chosen(parse_leaves_area_4_at_a_refusal, number != 0 && area4_length > 0)) {
        write_byte(area4);
    } else if (is_chosen(parse_leaves_the_last_byte, number == 0 && area2_length > 0)) {
        write_byte(area2 + area2_length - 1);
    } else if (is_chosen(parse_counts_at_faults, number == TROYMANTLE_FAULTY_FILE)) {
        counts[0] = 1;
    }
    return is_old ? TROYMANTLE_INVALID_UTF8 : wrong_parse_word(word);
}

/* ---- pattern */

uint64_t wrong_pattern(BYTES(source), BYTES(area1), BYTES(area2), SHEET_BEHIND_AREA_2, uint64_t rule)
{
    uint64_t word = troymantle_pattern(GIVEN_SHEET, rule);
    if (is_chosen(pattern_writes_area_2, area2_length > 0)) {
        write_byte(area2);
    }
    return is_chosen(pattern_has_another_length, TROYMANTLE_NUMBER(word) == 0) ? word + (1ull << 48) : word;
}

uint64_t wrong_pattern_test(BYTES(source), BYTES(area1), BYTES(area2), SHEET_BEHIND_AREA_2, uint64_t rule)
{
    uint64_t word = troymantle_pattern_test(GIVEN_SHEET, rule);
    return is_chosen(pattern_test_accepts_all, true) ? TROYMANTLE_ACCEPTED : word;
}

/* ---- link */

uint64_t wrong_link(BYTES(source), BYTES(area1), AREA(area2), SHEET_BEHIND_AREA_2, BYTES(names), BYTES(entries),
                    AREA(area7), AREA(area8))
{
    uint64_t word = troymantle_link(GIVEN_SHEET, GIVEN(names), GIVEN(entries), GIVEN(area7), GIVEN(area8));
    bool is_accepted = TROYMANTLE_NUMBER(word) == 0;
    if (is_chosen(link_writes_area_7_at_a_refusal, !is_accepted && area7_length > 0)) {
        write_byte(area7);
    } else if (is_chosen(link_writes_a_target, is_accepted && counts[1] > 0)) {
        write_byte(area2 + 2 * TARGET);
    } else if (is_chosen(link_writes_the_names, names_length > 0)) {
        write_byte(names);
    } else if (is_chosen(link_leaves_the_last_byte_of_area_8, is_accepted && area8_length > 0)) {
        write_byte(area8 + area8_length - 1);
    } else if (is_chosen(link_keeps_an_id, is_accepted && TROYMANTLE_A(word) > 0)) {
        area2[area7[0] * TROYMANTLE_RULE_WIDTH] = 1;
    }
    return is_chosen(link_takes_a_broken_map, true) ? instead(word, TROYMANTLE_BROKEN_MAP, 0) : word;
}

/* ---- start and step */

/* The kind that stands for another one. */
static uint64_t wrong_kind(uint64_t kind, uint64_t n)
{
    if (is_chosen(start_takes_a_kiosk_entry_of_513_bytes, kind == TROYMANTLE_KIOSK && n == 513) ||
        is_chosen(start_takes_an_unknown_kind, !is_kind(kind))) {
        return TROYMANTLE_SELLER;
    }
    if (is_chosen(start_gives_a_seller_the_limit_of_a_kiosk, kind == TROYMANTLE_SELLER)) {
        return TROYMANTLE_KIOSK;
    }
    return is_chosen(start_takes_the_kind_by_its_low_bits, true) ? (uint16_t)kind : kind;
}

/* The numbers that stand for those of the kind and of its limit. */
static uint64_t wrong_kind_word(uint64_t word, uint64_t kind, uint64_t n, BYTES(text), size_t stack_length)
{
    if (is_chosen(start_refuses_a_kiosk_entry_of_512_bytes, kind == TROYMANTLE_KIOSK && n == 512)) {
        return instead(word, TROYMANTLE_ACCEPTED, TROYMANTLE_START_REFUSED);
    }
    if (is_chosen(start_tests_n_before_the_kind, n > 4096 || stack_length < 2 * (n + 1))) {
        return instead(word, TROYMANTLE_UNKNOWN_CALLER, TROYMANTLE_START_REFUSED);
    }
    if (is_chosen(start_tests_the_text_before_the_kind, !is_utf8(text, text_length))) {
        return instead(word, TROYMANTLE_UNKNOWN_CALLER, TROYMANTLE_TEXT_MISMATCH);
    }
    return word;
}

static uint64_t wrong_start_word(uint64_t word, uint64_t n, BYTES(text))
{
    if (is_chosen(start_takes_a_short_stack, n <= 512)) {
        return instead(word, TROYMANTLE_START_REFUSED, TROYMANTLE_ACCEPTED);
    }
    if (is_chosen(start_tests_the_text_before_n, !is_utf8(text, text_length))) {
        return instead(word, TROYMANTLE_START_REFUSED, TROYMANTLE_TEXT_MISMATCH);
    }
    bool is_taken = is_chosen(start_takes_bytes_that_are_no_text, text_length == n) ||
                    is_chosen(start_takes_a_text_of_another_length, text_length != n);
    return is_taken ? instead(word, TROYMANTLE_TEXT_MISMATCH, TROYMANTLE_ACCEPTED) : word;
}

/* The kind that the run has afterwards: that of the call also where another one stood for it. */
static void leave_kind(uint16_t run[5], uint64_t kind, uint16_t before, bool is_accepted)
{
    if (is_chosen(start_takes_a_kiosk_entry_of_513_bytes, is_accepted) ||
        is_chosen(start_gives_a_seller_the_limit_of_a_kiosk, is_accepted) ||
        is_chosen(start_writes_the_kind_at_a_refusal, !is_accepted)) {
        run[4] = (uint16_t)kind;
    } else if (is_chosen(start_does_not_write_the_kind, true)) {
        run[4] = before;
    }
}

uint64_t wrong_start(uint64_t kind, uint64_t n, BYTES(text), uint16_t run[5], AREA(stack))
{
    uint16_t kind_before = run[4];
    uint64_t word = troymantle_start(wrong_kind(kind, n), n, GIVEN(text), run, GIVEN(stack));
    leave_kind(run, kind, kind_before, word == 0);
    if (is_chosen(start_writes_the_run_at_a_refusal, word != 0)) {
        run[1]++;
    } else if (is_chosen(start_clears_the_stack, word == 0)) {
        memset(stack, 0, stack_length);
    } else if (is_chosen(start_writes_the_text, text_length > 0)) {
        write_byte(text);
    } else if (is_chosen(start_reads_behind_the_text, true)) {
        read_byte(text + text_length);
    }
    return wrong_kind_word(wrong_start_word(word, n, GIVEN(text)), kind, n, GIVEN(text), stack_length);
}

/* Whether a row that was refused has a length for each rule, and none above the bytes left: then some length cuts a
 * character. */
static bool is_cut(const uint16_t run[5], BYTES(row), unsigned rules)
{
    size_t k = 0;
    if (row_length != 2 * (size_t)rules) {
        return false;
    }
    while (k < rules && field(row, k) <= (unsigned)run[0] - run[1]) {
        k++;
    }
    return k == rules;
}

/* The numbers that stand for those of the text and of cut characters. */
static uint64_t wrong_text_word(uint64_t word, BYTES(text), const uint16_t run[5], BYTES(row), unsigned rules)
{
    if (is_chosen(step_takes_bytes_that_are_no_text, text_length == run[0]) ||
        is_chosen(step_takes_a_text_of_another_length, text_length != run[0])) {
        return instead(word, TROYMANTLE_TEXT_MISMATCH, TROYMANTLE_STOPPED);
    }
    if (is_chosen(step_tests_the_text_before_the_sheet, !is_utf8(text, text_length))) {
        return instead(word, TROYMANTLE_BROKEN_SHEET, TROYMANTLE_TEXT_MISMATCH);
    }
    if (is_chosen(step_tests_the_run_before_the_text, run[1] > run[0] || run[2] == 0 || run[3] > run[1])) {
        return instead(word, TROYMANTLE_TEXT_MISMATCH, TROYMANTLE_BROKEN_RUN);
    }
    if (is_chosen(step_is_done_before_the_text, run[0] == run[1])) {
        return instead(word, TROYMANTLE_TEXT_MISMATCH, TROYMANTLE_DONE);
    }
    if (is_chosen(step_takes_a_length_that_cuts_a_character, is_cut(run, GIVEN(row), rules)) ||
        is_chosen(step_takes_0_inside_a_character, is_cut(run, GIVEN(row), rules) && are_zero(row, row_length))) {
        return instead(word, TROYMANTLE_ROW_MISMATCH, TROYMANTLE_STOPPED);
    }
    return word;
}

/* The numbers that stand for those of the run's kind and its limit. */
static uint64_t wrong_caller_word(uint64_t word, const uint16_t run[5])
{
    unsigned number = TROYMANTLE_NUMBER(word), n = run[0];
    if (is_chosen(step_takes_an_unknown_kind, !is_kind(run[4])) ||
        is_chosen(step_gives_a_kiosk_the_limit_of_a_seller, run[4] == TROYMANTLE_KIOSK && n > 512 && n <= 4096)) {
        return instead(word, TROYMANTLE_BROKEN_RUN, TROYMANTLE_STOPPED);
    }
    if (is_chosen(step_tests_the_kind_before_the_text, !is_kind(run[4]))) {
        return instead(word, TROYMANTLE_TEXT_MISMATCH, TROYMANTLE_BROKEN_RUN);
    }
    bool is_judged = number != TROYMANTLE_BROKEN_SHEET && number != TROYMANTLE_TEXT_MISMATCH;
    bool is_long = run[4] == TROYMANTLE_SELLER && n > 512;
    return is_chosen(step_gives_a_seller_the_limit_of_a_kiosk, is_judged && is_long) ? TROYMANTLE_BROKEN_RUN : word;
}

static uint64_t wrong_step_word(uint64_t word)
{
    unsigned number = TROYMANTLE_NUMBER(word);
    if (is_chosen(step_has_another_start, number == TROYMANTLE_TOKEN)) {
        return word + (1ull << 32);
    }
    if (is_chosen(step_has_a_value_at_a_skip, number == TROYMANTLE_SKIP)) {
        return word | 1 << 16;
    }
    return is_chosen(step_takes_a_broken_run, true) ? instead(word, TROYMANTLE_BROKEN_RUN, TROYMANTLE_STOPPED) : word;
}

/* What is read and written that is no business of a step. */
static void touch_in_step(BYTES(text), uint16_t run[5], BYTES(row))
{
    if (is_chosen(step_writes_the_text, text_length > 0)) {
        write_byte(text + text_length - 1);
    } else if (is_chosen(step_reads_behind_the_text, true)) {
        read_byte(text + text_length);
    } else if (is_chosen(step_writes_the_row, row_length > 0)) {
        write_byte(row);
    } else if (is_chosen(step_writes_behind_the_run, true)) {
        write_byte((uint8_t *)(run + 5));
    } else if (is_chosen(step_reads_behind_the_row, true)) {
        read_byte(row + row_length);
    }
}

uint64_t wrong_step(BYTES(source), BYTES(area1), BYTES(area2), SHEET_BEHIND_AREA_2, BYTES(text), uint16_t run[5],
                    AREA(stack), BYTES(row))
{
    uint64_t word = troymantle_step(GIVEN_SHEET, GIVEN(text), run, GIVEN(stack), GIVEN(row));
    unsigned number = TROYMANTLE_NUMBER(word);
    bool is_move = number == TROYMANTLE_TOKEN || number == TROYMANTLE_SKIP;
    touch_in_step(GIVEN(text), run, GIVEN(row));
    if (is_chosen(step_moves_when_done, number == TROYMANTLE_DONE) || is_chosen(step_counts_a_move_twice, is_move)) {
        run[3]++;
    } else if (is_chosen(step_loses_the_kind, is_move)) {
        run[4] = 0;
    } else if (is_chosen(step_writes_the_stack_at_a_refusal, number == TROYMANTLE_ROW_MISMATCH) ||
               is_chosen(step_writes_another_entry, is_move)) {
        write_byte(stack + stack_length - 1);
    }
    while (is_chosen(step_does_not_end, number == TROYMANTLE_STOPPED)) {
        read_byte((const uint8_t *)&word);
    }
    word = wrong_caller_word(wrong_text_word(word, GIVEN(text), run, GIVEN(row), counts[1]), run);
    return wrong_step_word(word);
}

/* ---- line_column */

static uint32_t count_carriage_returns(const uint8_t *source, uint64_t offset)
{
    uint32_t count = 0;
    for (uint64_t k = 0; k < offset; k++) {
        count += source[k] == '\r';
    }
    return count;
}

/* How many bytes an offset's line has before it. */
static uint32_t count_bytes(const uint8_t *source, uint64_t offset)
{
    uint64_t start = offset;
    while (start > 0 && source[start - 1] != '\n') {
        start--;
    }
    return (uint32_t)(offset - start);
}

/* What an accepted call answers in the place of what is right. */
static void change_place(BYTES(source), uint64_t offset, uint32_t place[2])
{
    if (is_chosen(line_column_counts_a_line_feed_to_the_next_line, offset < source_length && source[offset] == '\n')) {
        place[0]++;
        place[1] = 1;
    } else if (is_chosen(line_column_ends_lines_at_carriage_returns, true)) {
        place[0] += count_carriage_returns(source, offset);
    } else if (is_chosen(line_column_counts_bytes, true)) {
        place[1] = 1 + count_bytes(source, offset);
    } else if (is_chosen(line_column_counts_from_0, true)) {
        place[1]--;
    }
}

static void touch_in_line_column(BYTES(source), uint32_t place[2], uint64_t word)
{
    if (is_chosen(line_column_writes_the_place_at_a_refusal, word != TROYMANTLE_ACCEPTED)) {
        place[1]++;
    } else if (is_chosen(line_column_writes_behind_the_place, true)) {
        write_byte((uint8_t *)(place + 2));
    } else if (is_chosen(line_column_writes_the_source, source_length > 0)) {
        write_byte(source);
    } else if (is_chosen(line_column_reads_behind_the_source, true)) {
        read_byte(source + source_length);
    }
}

static uint64_t wrong_line_column_word(uint64_t word, BYTES(source), uint64_t offset)
{
    if (is_chosen(line_column_tests_text_before_length, !is_utf8(source, source_length))) {
        return instead(word, TROYMANTLE_LONG_FILE, TROYMANTLE_INVALID_UTF8);
    }
    if (is_chosen(line_column_tests_the_offset_before_text, offset > source_length)) {
        return instead(word, TROYMANTLE_INVALID_UTF8, TROYMANTLE_NO_SUCH_PLACE);
    }
    if (is_chosen(line_column_takes_the_inside_of_a_character, offset < source_length)) {
        return instead(word, TROYMANTLE_NO_SUCH_PLACE, TROYMANTLE_ACCEPTED);
    }
    return is_chosen(line_column_has_a_value, word == TROYMANTLE_ACCEPTED) ? 1 << 16 : word;
}

uint64_t wrong_line_column(BYTES(source), uint64_t offset, uint32_t place[2])
{
    uint64_t asked = is_chosen(line_column_takes_the_offset_by_its_low_bits, true)        ? (uint32_t)offset
                     : is_chosen(line_column_refuses_the_length, offset == source_length) ? UINT64_MAX
                                                                                          : offset;
    uint64_t word = troymantle_line_column(GIVEN(source), asked, place);
    if (word == TROYMANTLE_ACCEPTED) {
        change_place(GIVEN(source), asked, place);
    }
    touch_in_line_column(GIVEN(source), place, word);
    return wrong_line_column_word(word, GIVEN(source), offset);
}

/* ---- offset_at */

/* What is answered in the place of the offset that is right. */
static uint64_t wrong_offset(uint64_t word, BYTES(source), uint64_t line, uint64_t column)
{
    bool is_accepted = TROYMANTLE_NUMBER(word) == TROYMANTLE_ACCEPTED;
    if (is_chosen(offset_at_takes_a_column_past_the_line, word == TROYMANTLE_NO_SUCH_PLACE)) {
        uint64_t last = troymantle_offset_at(GIVEN(source), line, column - 1);
        return TROYMANTLE_NUMBER(last) == TROYMANTLE_ACCEPTED && TROYMANTLE_A(last) < source_length ? last + (1 << 16)
                                                                                                    : word;
    }
    if (is_chosen(offset_at_counts_bytes, is_accepted)) {
        return troymantle_offset_at(GIVEN(source), line, 1) + ((column - 1) << 16);
    }
    if (is_chosen(offset_at_refuses_the_length, is_accepted && TROYMANTLE_A(word) == source_length)) {
        return TROYMANTLE_NO_SUCH_PLACE;
    }
    return is_chosen(offset_at_has_a_second_value, is_accepted) ? word + (1ull << 32) : word;
}

uint64_t wrong_offset_at(BYTES(source), uint64_t line, uint64_t column)
{
    bool is_low = is_chosen(offset_at_takes_the_pair_by_its_low_bits, true);
    uint64_t asked_line = is_chosen(offset_at_takes_line_0, line == 0) ? 1 : is_low ? (uint32_t)line : line;
    uint64_t asked_column = is_chosen(offset_at_takes_column_0, column == 0) ? 1 : is_low ? (uint32_t)column : column;
    uint64_t word = troymantle_offset_at(GIVEN(source), asked_line, asked_column);
    if (is_chosen(offset_at_reads_before_the_source, true)) {
        read_byte(source - 1);
    }
    if (is_chosen(offset_at_tests_text_before_length, !is_utf8(source, source_length))) {
        return instead(word, TROYMANTLE_LONG_FILE, TROYMANTLE_INVALID_UTF8);
    }
    if (is_chosen(offset_at_tests_the_pair_before_text, line == 0 || column == 0)) {
        return instead(word, TROYMANTLE_INVALID_UTF8, TROYMANTLE_NO_SUCH_PLACE);
    }
    return wrong_offset(word, GIVEN(source), line, column);
}
#endif
