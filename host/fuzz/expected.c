/* Conditions of 01 and 02, written from their words. */
#include "fuzz.h"

#include <stdlib.h>
#include <string.h>

/* ---- 3, by table 3-7 of the Unicode standard */

struct form {
    uint8_t first_low, first_high, second_low, second_high;
    size_t length;
};

static const struct form FORMS[] = {
    {0x00, 0x7f, 0, 0, 1},       {0xc2, 0xdf, 0x80, 0xbf, 2}, {0xe0, 0xe0, 0xa0, 0xbf, 3},
    {0xe1, 0xec, 0x80, 0xbf, 3}, {0xed, 0xed, 0x80, 0x9f, 3}, {0xee, 0xef, 0x80, 0xbf, 3},
    {0xf0, 0xf0, 0x90, 0xbf, 4}, {0xf1, 0xf3, 0x80, 0xbf, 4}, {0xf4, 0xf4, 0x80, 0x8f, 4},
};

/* How many bytes the character has that the bytes begin with, and 0 where they begin with none. */
static size_t character(const uint8_t *data, size_t length)
{
    const struct form *form = FORMS, *end = FORMS + sizeof FORMS / sizeof *FORMS;
    while (form < end && (data[0] < form->first_low || data[0] > form->first_high)) {
        form++;
    }
    if (form == end || form->length > length) {
        return 0;
    }
    if (form->length > 1 && (data[1] < form->second_low || data[1] > form->second_high)) {
        return 0;
    }
    for (size_t k = 2; k < form->length; k++) {
        if (data[k] < 0x80 || data[k] > 0xbf) {
            return 0;
        }
    }
    return form->length;
}

bool is_utf8(const uint8_t *data, size_t length)
{
    size_t at = 0;
    while (at < length) {
        size_t bytes = character(data + at, length - at);
        if (bytes == 0) {
            return false;
        }
        at += bytes;
    }
    return true;
}

/* ---- 6: the sheet check */

static bool is_ordered(unsigned start, unsigned end, size_t length)
{
    return start <= end && end <= length;
}

static bool is_inside(unsigned from, unsigned bytes, size_t length)
{
    return (size_t)from + bytes <= length;
}

static bool is_state(const struct sheet *sheet, size_t k)
{
    const uint8_t *state = sheet->areas[0].data + k * TROYMANTLE_STATE_WIDTH;
    return is_ordered(field(state, 0), field(state, 1), sheet->source.length) && field(state, 2) <= 1;
}

static bool is_rule(const struct sheet *sheet, size_t k)
{
    unsigned rule[RULE_FIELDS];
    for (size_t number = 0; number < RULE_FIELDS; number++) {
        rule[number] = rule_field(sheet, k, number);
    }
    size_t text = rule[PLACE] == 1 ? sheet->counts[3] : sheet->source.length;
    return rule[HAS_ID] <= 1 && rule[NAMED] <= 1 && rule[PLACE] <= 1 && rule[OPERATION] <= 3 &&
           is_ordered(rule[SPAN_START], rule[SPAN_END], sheet->source.length) &&
           is_inside(rule[NAME_FROM], rule[NAME_LENGTH], sheet->source.length) &&
           is_inside(rule[TEXT_FROM], rule[TEXT_LENGTH], text) &&
           is_inside(rule[LIST_FROM], rule[LIST_COUNT], sheet->counts[2]) && rule[TARGET] < sheet->counts[0];
}

static bool is_declared(const struct sheet *sheet, size_t k)
{
    return field(sheet->areas[2].data, k) < sheet->counts[0];
}

static bool is_expected(const struct sheet *sheet, size_t k)
{
    const uint8_t *name = sheet->areas[4].data + k * TROYMANTLE_EXPECTED_WIDTH;
    return is_ordered(field(name, 0), field(name, 1), sheet->source.length);
}

static bool are_all(const struct sheet *sheet, size_t count, bool (*is_good)(const struct sheet *, size_t))
{
    size_t k = 0;
    while (k < count && is_good(sheet, k)) {
        k++;
    }
    return k == count;
}

bool is_sound(const struct sheet *sheet)
{
    for (size_t k = 0; k < 5; k++) {
        if (sheet->counts[k] * WIDTHS[k] > sheet->areas[k].length) {
            return false;
        }
    }
    return sheet->counts[0] >= 1 && sheet->counts[0] <= 64 && sheet->counts[1] <= 2048 &&
           are_all(sheet, sheet->counts[0], is_state) && are_all(sheet, sheet->counts[1], is_rule) &&
           are_all(sheet, sheet->counts[2], is_declared) && are_all(sheet, sheet->counts[4], is_expected);
}

/* ---- 7: the map */

struct name {
    const uint8_t *data;
    size_t length;
};

static int compare_names(const void *left, const void *right)
{
    const struct name *a = left, *b = right;
    return a->length != b->length ? (a->length < b->length ? -1 : 1) : memcmp(a->data, b->data, a->length);
}

/* Whether all names are inside; then they are taken. */
static bool take_names(struct name *names, const struct map *map, size_t count)
{
    size_t k = 0;
    while (k < count &&
           is_inside(field(map->entries.data, 3 * k), field(map->entries.data, 3 * k + 1), map->names.length)) {
        names[k].data = map->names.data + field(map->entries.data, 3 * k);
        names[k].length = field(map->entries.data, 3 * k + 1);
        k++;
    }
    return k == count;
}

bool is_map(const struct map *map)
{
    static struct name names[2048];
    size_t count = map->entries.length / 6, k = 1;
    if (map->entries.length % 6 != 0 || count > 2048 || !take_names(names, map, count)) {
        return false;
    }
    qsort(names, count, sizeof *names, compare_names);
    while (k < count && compare_names(&names[k - 1], &names[k]) != 0) {
        k++;
    }
    return k >= count;
}

/* ---- 13, and the limits of 8 and 9 (02, 3/13) */

bool is_kind(uint64_t kind)
{
    return kind == 0 || kind == 1;
}

unsigned most_entry(uint64_t kind)
{
    return kind == 0 ? 4096 : kind == 1 ? 512 : 0;
}

/* ---- 9 and 10: the run and the row */

bool is_run(const struct run *run, unsigned states)
{
    unsigned n = run->numbers[0], position = run->numbers[1], depth = run->numbers[2], moves = run->numbers[3];
    unsigned kind = run->numbers[4], k = 0;
    if (!is_kind(kind) || n > most_entry(kind) || position > n || depth == 0 || depth > position + 1 ||
        moves > position || run->stack.length < 2 * ((size_t)n + 1)) {
        return false;
    }
    while (k < depth && field(run->stack.data, k) < states) {
        k++;
    }
    return k == depth;
}

void mark_edges(const struct bytes *text, bool *edges)
{
    size_t at = 0, bytes = 0;
    memset(edges, 0, text->length + 1);
    do {
        at += bytes;
        edges[at] = true;
        bytes = at < text->length ? character(text->data + at, text->length - at) : 0;
    } while (bytes > 0);
}

bool is_row(const struct bytes *row, const struct run *run, const struct bytes *text, unsigned rules)
{
    static bool edges[TROYMANTLE_MOST_ENTRY + 1];
    unsigned position = run->numbers[1], left = run->numbers[0] - position, k = 0;
    if (row->length != 2 * (size_t)rules) {
        return false;
    }
    mark_edges(text, edges);
    while (k < rules && field(row->data, k) <= left && edges[position + field(row->data, k)]) {
        k++;
    }
    return k == rules;
}

/* ---- 12: the entry's text (02, 2/13) */

bool is_entry(const struct bytes *text, uint64_t n)
{
    return text->length == n && is_utf8(text->data, text->length);
}

/* ---- 11: lines and columns (02, 1/13) */

/* Behind one character more: a line feed is the last one of its line. */
static struct place next_place(const struct bytes *text, struct place place)
{
    const uint8_t *at = text->data + place.offset;
    bool is_end = *at == '\n';
    place.offset += character(at, text->length - place.offset);
    place.line += is_end;
    place.column = is_end ? 1 : place.column + 1;
    return place;
}

struct place place_up_to(const struct bytes *text, uint64_t offset)
{
    struct place place = FIRST_PLACE;
    while (place.offset < text->length) {
        struct place next = next_place(text, place);
        if (next.offset > offset) {
            return place;
        }
        place = next;
    }
    return place;
}

bool find_offset(const struct bytes *text, uint64_t line, uint64_t column, uint64_t *offset)
{
    struct place place = FIRST_PLACE;
    while (place.offset < text->length && (place.line != line || place.column != column)) {
        place = next_place(text, place);
    }
    *offset = place.offset;
    return place.line == line && place.column == column;
}
