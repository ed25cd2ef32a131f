/* What the files of the fuzz run share. docs/FUZZING.md says what is run. */
#ifndef FUZZ_H
#define FUZZ_H

#include <stdbool.h>
#include <stddef.h>
#include <stdint.h>

#include "troymantle.h"
#ifdef SELF_TEST
#include "wrong.h"
#endif

/* ---- random.c: numbers that depend on the seed and on the case's number alone */

void random_begin(uint64_t seed, uint64_t number);
uint64_t random_word(void);
/* A number below n, and 0 where n is 0. */
size_t below(size_t n);
bool one_in(size_t n);
/* One of the numbers. */
#define ONE_OF(...) (((const uint64_t[]){__VA_ARGS__})[below(sizeof((const uint64_t[]){__VA_ARGS__}) / 8)])
/* Where areas are placed is drawn apart, so that a case is the same in each build. */
uint64_t placement_word(void);

/* ---- bytes.c: bytes of at most MOST_LENGTH, kept from call to call */

enum { MOST_LENGTH = TROYMANTLE_AREA6_BYTES + 4096 };

struct bytes {
    size_t length;
    uint8_t data[MOST_LENGTH];
};

/* What does not fit is left out. */
void add(struct bytes *to, const void *data, size_t length);
void add_text(struct bytes *to, const char *text);
void add_byte(struct bytes *to, uint8_t byte);
/* Random bytes, each below so many values. */
void add_random(struct bytes *to, size_t length, size_t values);
void add_field(struct bytes *to, uint64_t value);
void copy_bytes(struct bytes *to, const void *data, size_t length);
/* Cuts the bytes, or adds zeros behind them, up to MOST_LENGTH. */
void resize(struct bytes *bytes, size_t length);
unsigned field(const uint8_t *area, size_t number);
void set_field(uint8_t *area, size_t number, uint64_t value);
bool are_zero(const uint8_t *data, size_t length);

/* ---- lend.c: what a call is lent, with guards around it */

enum access { READ, WRITE };

struct lent {
    const char *name;
    enum access access;
    uint8_t *bytes;
    size_t length;
    const uint8_t *before; /* what it held before the call */
    uint8_t *block;        /* what is freed, or null */
    size_t guard_before, guard_after;
};

enum { MOST_LENT = 11 };

struct loan {
    size_t count;
    struct lent lents[MOST_LENT];
};

void lend_begin(void);
void lend(struct loan *loan, enum access access, const char *name, const void *before, size_t length);
/* Aligned, each of so many bytes. */
void lend_numbers(struct loan *loan, enum access access, const char *name, const void *before, size_t count,
                  size_t width);
/* With contents that mean nothing. */
void lend_fresh(struct loan *loan, const char *name, size_t length, size_t alignment);
/* Where in what is lent an address lies, for what is told. */
void describe_address(const uint8_t *address, char *into, size_t length);
/* Guards, and what was lent for reading, are as before. */
void check_loan(const struct loan *loan);
void must_be_unchanged(const struct lent *lent);
void must_be_zero_from(const struct lent *lent, size_t from);
void end_loan(struct loan *loan);

/* The arguments of what was lent by its place in the loan. */
#define LENT(k) loan.lents[k].bytes, loan.lents[k].length
#define LENT_NUMBERS(k) ((uint16_t *)(void *)loan.lents[k].bytes)
#define LENT_PLACE(k) ((uint32_t *)(void *)loan.lents[k].bytes)
#define LENT_SHEET LENT(0), LENT(1), LENT(2), LENT(3), LENT(4), LENT(5), LENT_NUMBERS(6)

/* ---- fuzz.c: the case that is run, and what is told of it */

enum call { PARSE, PATTERN, PATTERN_TEST, LINK, START, STEP, LINE_COLUMN, OFFSET_AT, CALLS };

void begin_call(enum call call);
/* Counts the answer. */
void end_call(uint64_t word);
_Noreturn void fail(const char *format, ...) __attribute__((format(printf, 1, 2)));

/* ---- texts.c: lex files, verdicts, entries, and texts for lines and columns */

/* A file without faults, and one of any kind. */
void make_good_text(struct bytes *text);
void make_text(struct bytes *text);
void make_verdicts(struct bytes *verdicts);
void make_place_text(struct bytes *text);
/* Whole characters of one to four bytes, together just so many bytes. */
void make_entry(struct bytes *text, size_t length);
/* Another length, damaged, or with a cut character. */
void change_entry(struct bytes *text);
/* Names that the index of a link cannot tell apart, by a number below SAME_HOME. */
enum { SAME_HOME_LENGTH = 99, SAME_HOME = 25 * 25 };
void make_same_home_name(char name[SAME_HOME_LENGTH + 1], size_t number);

/* ---- inputs.c: sheets, maps, runs, rows and places */

struct sheet {
    struct bytes source, areas[5];
    uint16_t counts[6];
};

struct map {
    struct bytes names, entries;
};

struct run {
    uint16_t numbers[5]; /* n, position, depth, moves, kind */
    struct bytes stack;
};

enum { HAS_ID, ID, NAMED, SPAN_START, SPAN_END, NAME_FROM, NAME_LENGTH, PLACE, TEXT_FROM, TEXT_LENGTH, LIST_FROM,
       LIST_COUNT, OPERATION, TARGET, RULE_FIELDS };

unsigned rule_field(const struct sheet *sheet, size_t rule, size_t number);
void make_random_sheet(struct sheet *sheet);
void change_sheet(struct sheet *sheet);
void make_map(struct map *map, const struct sheet *sheet);
/* A kind of caller, mostly one of the two, and the bytes of an entry: few, about as many as its limit allows, or far above all limits. */
uint64_t choose_kind(void);
uint64_t choose_n(uint64_t kind);
void make_random_run(struct run *run);
void copy_run(struct run *to, const struct run *run);
/* One more, one less, none or any number. */
size_t other_length(size_t length);
void change_run(struct run *run);
void make_row(struct bytes *row, const struct sheet *sheet, const struct bytes *text, const struct run *run);
uint64_t choose_rule(const struct sheet *sheet);
uint64_t choose_offset(const struct bytes *text);
/* A line and a column. */
void choose_pair(const struct bytes *text, bool is_text, uint64_t pair[2]);

/* ---- expected.c: conditions of 01 and 02 */

bool is_utf8(const uint8_t *data, size_t length);
bool is_sound(const struct sheet *sheet);
bool is_map(const struct map *map);
bool is_kind(uint64_t kind);
/* The limit of a kind's entries; of one that is not there, none at all. */
unsigned most_entry(uint64_t kind);
bool is_run(const struct run *run, unsigned states);
bool is_entry(const struct bytes *text, uint64_t n);
/* The run and its text are good. */
bool is_row(const struct bytes *row, const struct run *run, const struct bytes *text, unsigned rules);
/* For each offset up to a text's length whether it is an edge: the length of some first so-many characters. Behind the
 * first byte that belongs to no character there are none. */
void mark_edges(const struct bytes *text, bool *edges);

/* An offset at the edge of a character, with its line and column. */
struct place {
    uint64_t offset, line, column;
};

#define FIRST_PLACE ((struct place){0, 1, 1})
/* The place of the last such offset of a text that is not above this one. The text is UTF-8, here and below. */
struct place place_up_to(const struct bytes *text, uint64_t offset);
/* Whether an offset has the line and column; then it is told. */
bool find_offset(const struct bytes *text, uint64_t line, uint64_t column, uint64_t *offset);

/* ---- parse_call.c, sheet_calls.c, run_calls.c, place_calls.c: calls, and what is checked of each */

extern const size_t WIDTHS[6];
/* Parses with areas of these lengths. Accepted, the sheet is what the call left. */
uint64_t try_parse(const struct bytes *source, uint64_t flags, const struct bytes *verdicts, const size_t lengths[6],
                   struct sheet *sheet);
/* The same with areas that are just long enough, and with one that is a byte short. */
void try_parse_at_limits(const struct bytes *source, uint64_t flags, const struct bytes *verdicts,
                         const size_t lengths[6], uint64_t word, const struct sheet *sheet);
void try_pattern(const struct sheet *sheet, uint64_t rule);
void lend_sheet(struct loan *loan, const struct sheet *sheet, enum access area_2);
/* Accepted, the sheet is linked. */
void try_link(struct sheet *sheet, const struct map *map, size_t length7, size_t length8);
/* Run and stack are as the call left them. */
uint64_t try_start(uint64_t kind, uint64_t n, const struct bytes *text, struct run *run);
void try_step(const struct sheet *sheet, const struct bytes *text, struct run *run, const struct bytes *row);
/* Lines and columns of so many offsets, and offsets of so many lines and columns. */
void try_places(const struct bytes *source, size_t tries);

/* ---- cases.c: all calls once or more, by the random numbers of the case */

void run_case(void);

#endif
