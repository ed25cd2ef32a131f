/* The pattern calls and the link call (01, Areas, and Linking). */
#include "fuzz.h"

#include <string.h>

void lend_sheet(struct loan *loan, const struct sheet *sheet, enum access area_2)
{
    static const char *const names[5] = {"area 1", "area 2", "area 3", "area 4", "area 5"};
    lend(loan, READ, "the source", sheet->source.data, sheet->source.length);
    for (size_t k = 0; k < 5; k++) {
        lend(loan, k == 1 ? area_2 : READ, names[k], sheet->areas[k].data, sheet->areas[k].length);
    }
    lend_numbers(loan, READ, "the counts", sheet->counts, 6, sizeof *sheet->counts);
}

static void expect_word(uint64_t word, uint64_t right)
{
    if (word != right) {
        fail("the answer is %#llx, and by 01 %#llx", (unsigned long long)word, (unsigned long long)right);
    }
}

/* ---- pattern */

/* Place, from and length of the rule's text, or number 6. */
static uint64_t pattern_word(const struct sheet *sheet, uint64_t rule)
{
    if (!is_sound(sheet) || rule >= sheet->counts[1]) {
        return TROYMANTLE_BROKEN_SHEET;
    }
    uint64_t place = rule_field(sheet, rule, PLACE), from = rule_field(sheet, rule, TEXT_FROM);
    return TROYMANTLE_ACCEPTED | place << 16 | from << 32 | (uint64_t)rule_field(sheet, rule, TEXT_LENGTH) << 48;
}

void try_pattern(const struct sheet *sheet, uint64_t rule)
{
    uint64_t right = pattern_word(sheet, rule);
    struct loan loan = {0};
    begin_call(PATTERN);
    lend_sheet(&loan, sheet, READ);
    uint64_t word = troymantle_pattern(LENT_SHEET, rule);
    end_call(word);
    check_loan(&loan);
    expect_word(word, right);
    begin_call(PATTERN_TEST);
    word = troymantle_pattern_test(LENT_SHEET, rule);
    end_call(word);
    check_loan(&loan);
    expect_word(word, TROYMANTLE_NUMBER(right));
    end_loan(&loan);
}

/* ---- link */

/* Where areas 2, 7 and 8 stand in the loan. */
enum { AREA_2 = 2, AREA_7 = 9, AREA_8 = 10 };

/* Linked, a rule has at most another id, and two zeros where it has none; a rule without a name is as before. */
static bool is_linked(const uint8_t *rule, const uint8_t *before)
{
    if (memcmp(rule + 4, before + 4, TROYMANTLE_RULE_WIDTH - 4) != 0) {
        return false;
    }
    if (field(before, NAMED) == 0) {
        return memcmp(rule, before, 4) == 0;
    }
    return field(rule, HAS_ID) == 1 || (field(rule, HAS_ID) == 0 && field(rule, ID) == 0);
}

/* Area 2 has linked rules and nothing else new; area 7 has the rules without an id. */
static void check_rules(const struct loan *loan, const struct sheet *sheet, unsigned unmapped)
{
    const struct lent *area_2 = &loan->lents[AREA_2], *area_7 = &loan->lents[AREA_7];
    size_t rules = sheet->counts[1], end = rules * TROYMANTLE_RULE_WIDTH, found = 0;
    for (size_t k = 0; k < rules; k++) {
        const uint8_t *rule = area_2->bytes + k * TROYMANTLE_RULE_WIDTH;
        if (!is_linked(rule, area_2->before + k * TROYMANTLE_RULE_WIDTH)) {
            fail("more of rule %zu is new than its id", k);
        }
        if (field(rule, NAMED) == 1 && field(rule, HAS_ID) == 0) {
            if (found >= unmapped || field(area_7->bytes, found) != k) {
                fail("rule %zu has no id, and is not in area 7 at its place", k);
            }
            found++;
        }
    }
    if (found != unmapped || memcmp(area_2->bytes + end, area_2->before + end, area_2->length - end) != 0) {
        fail("area 7 has more rules than are without an id, or area 2 has new bytes behind its rules");
    }
}

/* Areas 7 and 8 have as many numbers as the answer says, then zeros; those of area 8 are entries in order. */
static void check_numbers(const struct loan *loan, unsigned unmapped, unsigned unused, size_t entries)
{
    const struct lent *area_8 = &loan->lents[AREA_8];
    must_be_zero_from(&loan->lents[AREA_7], 2 * (size_t)unmapped);
    must_be_zero_from(area_8, 2 * (size_t)unused);
    for (size_t k = 0; k < unused; k++) {
        size_t entry = field(area_8->bytes, k);
        if (entry >= entries || (k > 0 && entry <= field(area_8->bytes, k - 1))) {
            fail("number %zu of area 8 is no entry, or not in order", k);
        }
    }
}

static size_t count_named(const struct sheet *sheet)
{
    size_t named = 0;
    for (size_t k = 0; k < sheet->counts[1]; k++) {
        named += rule_field(sheet, k, NAMED);
    }
    return named;
}

static void check_refused(const struct loan *loan, const struct sheet *sheet, uint64_t word, size_t entries)
{
    must_be_unchanged(&loan->lents[AREA_2]);
    must_be_unchanged(&loan->lents[AREA_7]);
    must_be_unchanged(&loan->lents[AREA_8]);
    if (TROYMANTLE_NUMBER(word) == TROYMANTLE_AREA_FULL) {
        bool is_7 = TROYMANTLE_A(word) == 7;
        size_t numbers = is_7 ? count_named(sheet) : entries;
        expect_word(word, TROYMANTLE_AREA_FULL | (is_7 ? 7u : 8u) << 16);
        if (loan->lents[is_7 ? AREA_7 : AREA_8].length >= 2 * numbers) {
            fail("area %d has room for every number, and is said to be full", is_7 ? 7 : 8);
        }
    }
}

static void check_link(const struct loan *loan, const struct sheet *sheet, const struct map *map, uint64_t word)
{
    size_t entries = map->entries.length / TROYMANTLE_MAP_WIDTH;
    unsigned number = TROYMANTLE_NUMBER(word), unmapped = TROYMANTLE_A(word), unused = TROYMANTLE_B(word);
    unsigned right = !is_sound(sheet) ? TROYMANTLE_BROKEN_SHEET : !is_map(map) ? TROYMANTLE_BROKEN_MAP : 0;
    if (right != 0) {
        expect_word(word, right);
    } else if ((number != TROYMANTLE_ACCEPTED && number != TROYMANTLE_AREA_FULL) || TROYMANTLE_C(word) != 0) {
        fail("the answer is %#llx, and by 01 0 or 4", (unsigned long long)word);
    }
    if (number == TROYMANTLE_ACCEPTED) {
        check_numbers(loan, unmapped, unused, entries);
        check_rules(loan, sheet, unmapped);
    } else {
        check_refused(loan, sheet, word, entries);
    }
}

void try_link(struct sheet *sheet, const struct map *map, size_t length7, size_t length8)
{
    static struct bytes areas[2];
    struct loan loan = {0};
    areas[0].length = areas[1].length = 0;
    add_random(&areas[0], length7, 256);
    add_random(&areas[1], length8, 256);
    begin_call(LINK);
    lend_sheet(&loan, sheet, WRITE);
    lend(&loan, READ, "the names", map->names.data, map->names.length);
    lend(&loan, READ, "the entries", map->entries.data, map->entries.length);
    lend(&loan, WRITE, "area 7", areas[0].data, length7);
    lend(&loan, WRITE, "area 8", areas[1].data, length8);
    uint64_t word = troymantle_link(LENT_SHEET, LENT(7), LENT(8), LENT(9), LENT(10));
    end_call(word);
    check_loan(&loan);
    check_link(&loan, sheet, map, word);
    memcpy(sheet->areas[1].data, loan.lents[AREA_2].bytes, sheet->areas[1].length);
    end_loan(&loan);
}
