/* One case: a parse, and the other calls on a sheet. */
#include "fuzz.h"

static const size_t MOST[6] = {TROYMANTLE_AREA1_BYTES, TROYMANTLE_AREA2_BYTES, TROYMANTLE_AREA3_BYTES,
                               TROYMANTLE_AREA4_BYTES, TROYMANTLE_AREA5_BYTES, TROYMANTLE_AREA6_BYTES};
/* Enough for most files that are made. */
static const size_t USUAL[6] = {384, 28 * 80, 2 * 1000, 5000, 4 * 20, 8 * 40};

/* Lengths of the areas of a parse: mostly enough, now and then one that is not, or few bytes for all. */
static void choose_lengths(size_t lengths[6], size_t source_length)
{
    bool is_most = one_in(source_length > 2000 ? 2 : 100), is_small = one_in(8);
    for (size_t k = 0; k < 6; k++) {
        lengths[k] = is_most ? MOST[k] + below(3) : is_small ? below(120) : USUAL[k] + below(8);
    }
    if (one_in(4)) {
        size_t k = below(6);
        lengths[k] = one_in(2) ? below(lengths[k] + 1) : ONE_OF(0, 1, 2, 3, 5, 6, 7, 8, 27, 28, 29);
    }
}

/* Parses a file; whether it was accepted. */
static bool try_file(struct sheet *sheet)
{
    static struct bytes text, verdicts;
    size_t lengths[6];
    make_text(&text);
    make_verdicts(&verdicts);
    choose_lengths(lengths, text.length);
    uint64_t flags = one_in(12) ? ONE_OF(4, 5, 256, 1ull << 32, 1ull << 63, UINT64_MAX, random_word()) : below(4);
    uint64_t word = try_parse(&text, flags, &verdicts, lengths, sheet);
    unsigned answer = TROYMANTLE_NUMBER(word);
    if ((answer == TROYMANTLE_ACCEPTED || answer == TROYMANTLE_FAULTY_FILE) && one_in(3)) {
        try_parse_at_limits(&text, flags, &verdicts, lengths, word, sheet);
    }
    return word == TROYMANTLE_ACCEPTED;
}

/* A sheet that was accepted, with some changes or none, or random bytes. */
static void make_sheet(struct sheet *sheet, bool is_accepted)
{
    static struct bytes text, verdicts;
    if (!is_accepted) {
        make_good_text(&text);
        is_accepted = try_parse(&text, below(4), &verdicts, USUAL, sheet) == TROYMANTLE_ACCEPTED;
    }
    if (!is_accepted || one_in(16)) {
        make_random_sheet(sheet);
    }
    for (size_t k = 0; k < 5; k++) {
        resize(&sheet->areas[k], sheet->areas[k].length + (one_in(4) ? below(6) : 0));
    }
    for (size_t changes = one_in(3) ? below(4) : 0; changes > 0; changes--) {
        change_sheet(sheet);
    }
}

static void try_map(struct sheet *sheet)
{
    static struct map map;
    make_map(&map, sheet);
    size_t length7 = 2 * (size_t)(sheet->counts[1] % 4096), length8 = map.entries.length / 6 * 2;
    try_link(sheet, &map, one_in(3) ? other_length(below(length7 + 1)) : length7,
             one_in(3) ? other_length(below(length8 + 1)) : length8);
}

/* Steps of a run over its text, and now and then one of a changed run, or with a changed text. */
static void try_steps(const struct sheet *sheet, const struct bytes *text, struct run *run)
{
    static struct bytes row, changed_text;
    static struct run changed;
    for (size_t steps = below(8); steps > 0; steps--) {
        make_row(&row, sheet, text, run);
        if (one_in(6)) {
            copy_run(&changed, run);
            copy_bytes(&changed_text, text->data, text->length);
            if (one_in(2)) {
                change_run(&changed);
            }
            if (one_in(2)) {
                change_entry(&changed_text);
            }
            try_step(sheet, &changed_text, &changed, &row);
        }
        try_step(sheet, text, run, &row);
    }
}

static void try_run(const struct sheet *sheet)
{
    static struct run run;
    static struct bytes text;
    uint64_t kind = choose_kind(), n = choose_n(kind);
    size_t length = n <= 65535 ? 2 * (n + 1) : below(100);
    for (size_t k = 0; k < 5; k++) {
        run.numbers[k] = (uint16_t)random_word();
    }
    run.stack.length = 0;
    add_random(&run.stack, one_in(6) ? other_length(length) : length, 256);
    make_entry(&text, n <= 65536 ? n : below(100));
    if (one_in(8)) {
        change_entry(&text);
    }
    if (try_start(kind, n, &text, &run) != TROYMANTLE_ACCEPTED || one_in(10)) {
        make_random_run(&run);
        make_entry(&text, run.numbers[0] <= 4096 || one_in(4) ? run.numbers[0] : below(100));
    }
    try_steps(sheet, &text, &run);
}

static void try_lines(void)
{
    static struct bytes text;
    make_place_text(&text);
    try_places(&text, text.length > 2000 ? 1 : 4);
}

void run_case(void)
{
    static struct sheet sheet;
    make_sheet(&sheet, try_file(&sheet));
    try_pattern(&sheet, choose_rule(&sheet));
    try_map(&sheet);
    try_pattern(&sheet, choose_rule(&sheet));
    try_run(&sheet);
    try_lines();
}
