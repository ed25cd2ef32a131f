/* Sheets, maps, runs, rows and places, good and bad. */
#include "fuzz.h"

#include <stdio.h>
#include <string.h>

unsigned rule_field(const struct sheet *sheet, size_t rule, size_t number)
{
    return field(sheet->areas[1].data, rule * RULE_FIELDS + number);
}

/* ---- sheets */

void make_random_sheet(struct sheet *sheet)
{
    size_t values = ONE_OF(1, 2, 4, 256), counts = ONE_OF(2, 4, 65536);
    sheet->source.length = 0;
    add_random(&sheet->source, below(60), values);
    for (size_t k = 0; k < 5; k++) {
        sheet->counts[k] = (uint16_t)below(counts);
        sheet->areas[k].length = 0;
        add_random(&sheet->areas[k], one_in(2) ? below(120) : sheet->counts[k] % 256 * WIDTHS[k], values);
    }
    sheet->counts[5] = (uint16_t)random_word();
}

/* A number near the edge of what a field may have. */
static uint64_t edge(const struct sheet *sheet)
{
    uint64_t numbers[] = {0, 1, 2, 3, 4, 255, 256, 65535, sheet->source.length, sheet->counts[below(5)], random_word()};
    return numbers[below(sizeof numbers / sizeof *numbers)] + ONE_OF(0, 0, 0, 1, UINT64_MAX);
}

size_t other_length(size_t length)
{
    const size_t lengths[] = {length + 1, length - (length > 0), length - (length > 0), 0, below(length + 40)};
    return lengths[below(sizeof lengths / sizeof *lengths)];
}

void change_sheet(struct sheet *sheet)
{
    size_t k = below(5);
    struct bytes *area = one_in(8) ? &sheet->source : &sheet->areas[k];
    size_t at = below(area->length);
    switch (below(6)) {
    case 0:
        sheet->counts[k] = (uint16_t)(one_in(2) ? edge(sheet) : other_length(sheet->counts[k]));
        break;
    case 1:
        resize(area, other_length(area->length));
        break;
    case 2:
        if (area->length > 0) {
            area->data[at] = (uint8_t)random_word();
        }
        break;
    default:
        if (area->length >= at / 2 * 2 + 2) {
            set_field(area->data, at / 2, edge(sheet));
        }
    }
}

uint64_t choose_rule(const struct sheet *sheet)
{
    uint64_t rule = below(sheet->counts[1]);
    return one_in(2) ? rule : rule + ONE_OF(0, 1, 65536, 1ull << 32, 1ull << 63, UINT64_MAX, sheet->counts[1]);
}

/* ---- maps */

static void add_entry(struct map *map, const void *name, size_t length)
{
    add_field(&map->entries, map->names.length);
    add_field(&map->entries, length);
    add_field(&map->entries, random_word());
    add(&map->names, name, length);
}

/* Entries for some of the named rules of a sheet that passes its check. */
static void add_rule_names(struct map *map, const struct sheet *sheet)
{
    size_t omitted = ONE_OF(2, 10, 1000);
    for (size_t k = 0; k < sheet->counts[1]; k++) {
        if (rule_field(sheet, k, NAMED) == 1 && !one_in(omitted)) {
            add_entry(map, sheet->source.data + rule_field(sheet, k, NAME_FROM), rule_field(sheet, k, NAME_LENGTH));
        }
    }
}

/* Entries that no rule of a file without faults names. */
static void add_other_names(struct map *map, size_t count)
{
    char name[16];
    for (size_t k = 0; k < count; k++) {
        add_entry(map, name, (size_t)snprintf(name, sizeof name, "-%zu", k));
    }
}

/* Entries with names that the index cannot tell apart. */
static void add_same_home_names(struct map *map, size_t count)
{
    char name[SAME_HOME_LENGTH + 1];
    size_t from = below(SAME_HOME - count + 1);
    for (size_t k = 0; k < count; k++) {
        make_same_home_name(name, from + k);
        add_entry(map, name, SAME_HOME_LENGTH);
    }
}

static void change_map(struct map *map)
{
    size_t fields = map->entries.length / 2, at = below(fields);
    switch (below(5)) {
    case 0:
        resize(&map->entries, other_length(map->entries.length));
        break;
    case 1:
        resize(&map->names, other_length(map->names.length));
        break;
    case 2:
        if (map->entries.length >= 6) {
            add(&map->entries, map->entries.data + below(map->entries.length / 6) * 6, 6); /* equal names */
        }
        break;
    default:
        if (fields > 0) {
            set_field(map->entries.data, at, one_in(2) ? random_word() : ONE_OF(0, 1, 2, 65535, map->names.length));
        }
    }
}

static void add_usual_names(struct map *map, const struct sheet *sheet)
{
    if (is_sound(sheet)) {
        add_rule_names(map, sheet);
    }
    add_other_names(map, one_in(500) ? 2045 + below(6) : below(6));
    if (one_in(20)) {
        add_same_home_names(map, below(10));
    }
}

void make_map(struct map *map, const struct sheet *sheet)
{
    map->names.length = map->entries.length = 0;
    if (one_in(12)) {
        add_random(&map->names, below(100), ONE_OF(1, 2, 256));
        add_random(&map->entries, one_in(2) ? 6 * below(10) : below(60), ONE_OF(1, 2, 256));
        return;
    }
    if (one_in(300)) {
        add_same_home_names(map, SAME_HOME - below(60)); /* more than the index has slots for */
    } else {
        add_usual_names(map, sheet);
    }
    for (size_t changes = one_in(4) ? below(3) : 0; changes > 0; changes--) {
        change_map(map);
    }
}

/* ---- runs and rows */

uint64_t choose_kind(void)
{
    return one_in(8) ? ONE_OF(2, 3, 255, 256, 257, 65535, 65536, 65537, 1ull << 32, (1ull << 32) + 1, 1ull << 63,
                              UINT64_MAX, random_word())
                     : below(2);
}

/* The bytes of an entry that are about as many as a limit allows, or far above all limits. */
static uint64_t choose_edge(uint64_t kind)
{
    uint64_t most = most_entry(kind);
    return ONE_OF(most, most, most + 1, most + 1, most - (most > 0), 512, 513, 4095, 4096, 4097, 65535, 65536,
                  1ull << 32, 1ull << 63, UINT64_MAX - 1, UINT64_MAX, random_word());
}

uint64_t choose_n(uint64_t kind)
{
    return one_in(6) ? choose_edge(kind) : below(30);
}

void make_random_run(struct run *run)
{
    uint64_t kind = choose_kind();
    size_t n = one_in(20) ? below(65536) : one_in(6) ? (uint16_t)choose_edge(kind) : below(40);
    const uint64_t numbers[] = {n, below(n + 1), 1 + below(4), below(4), kind};
    for (size_t k = 0; k < 5; k++) {
        run->numbers[k] = (uint16_t)(one_in(8) ? random_word() : numbers[k]);
    }
    run->stack.length = 0;
    add_random(&run->stack, one_in(8) ? below(200) : 2 * (n + 1) - one_in(8), ONE_OF(1, 2, 4, 256));
}

void copy_run(struct run *to, const struct run *run)
{
    memcpy(to->numbers, run->numbers, sizeof to->numbers);
    copy_bytes(&to->stack, run->stack.data, run->stack.length);
}

void change_run(struct run *run)
{
    unsigned n = run->numbers[0], at = (unsigned)below(run->stack.length / 2);
    uint16_t *number = &run->numbers[below(5)];
    switch (below(5)) {
    case 0:
        *number = (uint16_t)(*number + ONE_OF(1, 2, 65535));
        break;
    case 1:
        *number = (uint16_t)ONE_OF(0, n, n + 1, 512, 513, 4096, 4097, 65535, random_word());
        break;
    case 2:
        run->numbers[4] = (uint16_t)choose_kind();
        break;
    case 3:
        resize(&run->stack, other_length(run->stack.length));
        break;
    default:
        if (run->stack.length >= 2) {
            set_field(run->stack.data, at, ONE_OF(0, 1, 2, 63, 64, 256, 65535));
        }
    }
}

/* A length of at most so many bytes, or the next one that ends at an edge. */
static size_t choose_length(const struct bytes *text, const bool *edges, size_t position, size_t most)
{
    size_t length = below(most + 1);
    while (length < most && position + length < text->length && !edges[position + length]) {
        length++;
    }
    return length;
}

/* Mostly two bytes for each rule, and lengths of at most what is left that end at edges of the text. */
void make_row(struct bytes *row, const struct sheet *sheet, const struct bytes *text, const struct run *run)
{
    static bool edges[MOST_LENGTH + 1];
    size_t rules = sheet->counts[1], position = run->numbers[1], left = (uint16_t)(run->numbers[0] - position);
    size_t most = one_in(2) ? left : left < 6 ? left : 6, matching = ONE_OF(1, 2, 10, 100000);
    mark_edges(text, edges);
    row->length = 0;
    for (size_t k = 0; k < rules && k < 4096; k++) {
        add_field(row, one_in(matching) ? choose_length(text, edges, position, most) : 0);
    }
    if (one_in(6) && rules > 0 && row->length > 0) {
        set_field(row->data, below(row->length / 2), ONE_OF(below(left + 1), below(most + 1), left, left + 1, 65535));
    }
    if (one_in(16)) {
        resize(row, other_length(row->length));
    }
}

/* ---- places */

uint64_t choose_offset(const struct bytes *text)
{
    uint64_t offset = below(text->length + 1), end = text->length;
    return one_in(2) ? offset
                     : ONE_OF(0, 1, end - 1, end, end, end + 1, end + 2, offset + (1ull << 16), offset + (1ull << 32),
                              1ull << 63, UINT64_MAX, random_word());
}

/* The line and column of an offset, often of a line's end or of the last one, and often one of them changed. */
void choose_pair(const struct bytes *text, bool is_text, uint64_t pair[2])
{
    size_t at = one_in(4) ? text->length : below(text->length + 1);
    bool is_line_end = one_in(3);
    while (is_line_end && at < text->length && text->data[at] != '\n') {
        at++;
    }
    struct place place = is_text ? place_up_to(text, at) : FIRST_PLACE;
    pair[0] = place.line;
    pair[1] = place.column;
    if (one_in(2)) {
        pair[below(2)] += ONE_OF(1, 1, 1, UINT64_MAX, UINT64_MAX, 1ull << 16, 1ull << 32, 1ull << 63);
    } else if (one_in(4)) {
        pair[below(2)] = ONE_OF(0, 1, 65535, 65536, 65537, UINT64_MAX, random_word());
    }
}
