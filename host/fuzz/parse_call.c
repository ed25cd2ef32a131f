/* The parse call (01, Numbers given at the counter, and Areas). */
#include "fuzz.h"

#include <string.h>

const size_t WIDTHS[6] = {TROYMANTLE_STATE_WIDTH,    TROYMANTLE_RULE_WIDTH, TROYMANTLE_LIST_WIDTH, 1,
                          TROYMANTLE_EXPECTED_WIDTH, TROYMANTLE_FAULT_WIDTH};
static const unsigned LIMITS[6] = {64, 2048, 65535, 65535, 65535, 0};
static const char *const NAMES[6] = {"area 1", "area 2", "area 3", "area 4", "area 5", "area 6"};

/* Where areas and counts stand in the loan. */
enum { AREA_1 = 2, COUNTS = 8 };

/* 1, 2, 3; 0 where the file is read. */
static unsigned refusal(const struct bytes *source, uint64_t flags)
{
    if (source->length > 65535) {
        return TROYMANTLE_LONG_FILE;
    }
    if (flags > 3) {
        return TROYMANTLE_UNKNOWN_FLAG;
    }
    return is_utf8(source->data, source->length) ? 0 : TROYMANTLE_INVALID_UTF8;
}

static void check_word(uint64_t word, unsigned right)
{
    unsigned number = TROYMANTLE_NUMBER(word), a = TROYMANTLE_A(word);
    if (right != 0 ? word != right : number != 0 && number != 4 && number != 5) {
        fail("the answer is %#llx; 01 has %u, or 0, 4 and 5 for 0", (unsigned long long)word, right);
    }
    if (word >> 32 != 0 || (number == 0 && a != 0) || (number == 4 && (a < 1 || a > 6)) || (number == 5 && a == 0)) {
        fail("the answer %#llx has wrong values", (unsigned long long)word);
    }
}

/* Accepted: records within the limits, zeros behind them, and a sound sheet that begins with INITIAL. */
static void check_accepted(const struct loan *loan, const struct sheet *sheet)
{
    for (size_t k = 0; k < 6; k++) {
        if (sheet->counts[k] > LIMITS[k]) {
            fail("the count of %s is %u", NAMES[k], sheet->counts[k]);
        }
        must_be_zero_from(&loan->lents[AREA_1 + k], sheet->counts[k] * WIDTHS[k]);
    }
    if (!is_sound(sheet) || !are_zero(sheet->areas[0].data, TROYMANTLE_STATE_WIDTH)) {
        fail("what it accepted is no sound sheet");
    }
    for (size_t k = 0; k < sheet->counts[1]; k++) {
        if (rule_field(sheet, k, HAS_ID) != 1 || rule_field(sheet, k, ID) != k) {
            fail("the id of rule %zu is not its position", k);
        }
    }
}

/* A span of a fault, behind another of the number before: its own number, kind and place. It starts at the edge of a
 * character, so that it has a line and a column. */
static bool is_fault(const uint8_t *span, unsigned before, const struct bytes *source)
{
    unsigned number = field(span, 0), kind = field(span, 1), start = field(span, 2), end = field(span, 3);
    bool may_be_long = kind == TROYMANTLE_DUPLICATE_START_STATE || kind == TROYMANTLE_DUPLICATE_NAME ||
                       kind == TROYMANTLE_VERBATIM_NOT_SUPPORTED;
    return (number == before || number == before + 1) && kind <= 11 && start <= end && end <= source->length &&
           (may_be_long || start == end) && (start == source->length || (source->data[start] & 0xc0) != 0x80);
}

/* 1 to 4: everything is zero; 5: everything but the fault spans. */
static void check_refused(const struct loan *loan, uint64_t word, const struct bytes *source)
{
    size_t spans = TROYMANTLE_NUMBER(word) == TROYMANTLE_FAULTY_FILE ? TROYMANTLE_A(word) : 0;
    for (size_t k = 0; k < 6; k++) {
        must_be_zero_from(&loan->lents[AREA_1 + k], k == 5 ? spans * TROYMANTLE_FAULT_WIDTH : 0);
    }
    must_be_zero_from(&loan->lents[COUNTS], 0);
    const uint8_t *faults = loan->lents[AREA_1 + 5].bytes;
    for (size_t k = 0; k < spans; k++) {
        if (!is_fault(faults + 8 * k, k == 0 ? 0 : field(faults + 8 * (k - 1), 0), source)) {
            fail("fault span %zu is none", k);
        }
    }
}

/* What the call left, with as many bytes of each area as its records have. */
static void take_sheet(struct sheet *sheet, const struct bytes *source, const struct loan *loan)
{
    memcpy(sheet->counts, loan->lents[COUNTS].bytes, sizeof sheet->counts);
    copy_bytes(&sheet->source, source->data, source->length);
    for (size_t k = 0; k < 5; k++) {
        const struct lent *area = &loan->lents[AREA_1 + k];
        size_t bytes = sheet->counts[k] * WIDTHS[k];
        if (bytes > area->length) {
            fail("the count of %s is %u, more than it holds", NAMES[k], sheet->counts[k]);
        }
        copy_bytes(&sheet->areas[k], area->bytes, bytes);
    }
}

uint64_t try_parse(const struct bytes *source, uint64_t flags, const struct bytes *verdicts, const size_t lengths[6],
                   struct sheet *sheet)
{
    struct loan loan = {0};
    begin_call(PARSE);
    lend(&loan, READ, "the source", source->data, source->length);
    lend(&loan, READ, "the verdicts", verdicts->data, verdicts->length);
    for (size_t k = 0; k < 6; k++) {
        lend_fresh(&loan, NAMES[k], lengths[k], 1);
    }
    lend_fresh(&loan, "the counts", 6 * sizeof(uint16_t), sizeof(uint16_t));
    uint64_t word = troymantle_parse(LENT(0), flags, LENT(1), LENT(2), LENT(3), LENT(4), LENT(5), LENT(6), LENT(7),
                                     LENT_NUMBERS(COUNTS));
    end_call(word);
    check_loan(&loan);
    check_word(word, refusal(source, flags));
    if (word == TROYMANTLE_ACCEPTED) {
        take_sheet(sheet, source, &loan);
        check_accepted(&loan, sheet);
    } else {
        check_refused(&loan, word, source);
    }
    end_loan(&loan);
    return word;
}

static bool is_same_sheet(const struct sheet *left, const struct sheet *right)
{
    bool same = memcmp(left->counts, right->counts, sizeof left->counts) == 0;
    for (size_t k = 0; k < 5; k++) {
        same = same && left->areas[k].length == right->areas[k].length &&
               memcmp(left->areas[k].data, right->areas[k].data, left->areas[k].length) == 0;
    }
    return same;
}

/* An area that has just the bytes of its records is enough, and one byte less gives number 4 with that area. */
void try_parse_at_limits(const struct bytes *source, uint64_t flags, const struct bytes *verdicts,
                         const size_t lengths[6], uint64_t word, const struct sheet *sheet)
{
    static struct sheet again;
    size_t exact[6], k = below(6);
    memcpy(exact, lengths, sizeof exact);
    if (word == TROYMANTLE_ACCEPTED) {
        for (size_t j = 0; j < 6; j++) {
            exact[j] = sheet->counts[j] * WIDTHS[j];
        }
    } else {
        k = 5;
        exact[k] = TROYMANTLE_A(word) * (size_t)TROYMANTLE_FAULT_WIDTH;
    }
    if (try_parse(source, flags, verdicts, exact, &again) != word ||
        (word == TROYMANTLE_ACCEPTED && !is_same_sheet(sheet, &again))) {
        fail("it has another answer where areas are just long enough");
    }
    if (exact[k] > 0) {
        exact[k]--;
        if (try_parse(source, flags, verdicts, exact, &again) != (TROYMANTLE_AREA_FULL | (k + 1) << 16)) {
            fail("%s is a byte short, and the answer is not that it is full", NAMES[k]);
        }
    }
}
