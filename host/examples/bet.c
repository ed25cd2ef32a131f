/* A small host in C: it cuts a seller's entry into tokens by a lex file. It parses the file, links the rules to token
 * ids, and moves a run over the entry with rows that its own little matcher makes. It also shows some refusals. It ends
 * with 1 at any answer that it does not expect.
 *
 *     cc -std=c11 -Iinclude host/examples/bet.c target/staticlib/libtroymantle.a -o target/bet && target/bet
 *
 * host/examples/bet.stdout is what it prints. */
#include <stdio.h>
#include <stdlib.h>
#include <string.h>

#include "troymantle.h"

/* Four rules with a name, whose tokens are answered, and one without, which skips blanks. */
static const char LEX_FILE[] = "%%\nWIN 'WIN'\nPLACE 'PLACE'\n[0-9]+ 'NUMBER'\n€ 'EURO'\n[ ]+ ;\n";
/* It is UTF-8: the euro sign has three bytes. */
static const char ENTRY[] = "WIN 12  PLACE 7 €5";

/* The map: names, and of each where it starts, its length and its token id, in two bytes, the low one first. */
static const char NAMES[] = "NUMBERPLACEWINEURO";
static const uint8_t MAP[] = {0, 0, 6, 0, 30, 0, 6, 0, 5, 0, 20, 0, 11, 0, 3, 0, 10, 0, 14, 0, 4, 0, 40, 0};

/* What is lent to the calls: areas and a stack that are long enough for every file and entry. */
static uint8_t area1[TROYMANTLE_AREA1_BYTES], area2[TROYMANTLE_AREA2_BYTES], area3[TROYMANTLE_AREA3_BYTES];
static uint8_t area4[TROYMANTLE_AREA4_BYTES], area5[TROYMANTLE_AREA5_BYTES], area6[TROYMANTLE_AREA6_BYTES];
static uint8_t area7[TROYMANTLE_AREA7_BYTES], area8[TROYMANTLE_AREA8_BYTES], stack[TROYMANTLE_STACK_BYTES];
static uint8_t row[TROYMANTLE_NUMBER_WIDTH * TROYMANTLE_MOST_RULES];
static uint16_t counts[6], run[5];

/* The bytes of a string constant, and the arguments that make a sheet of the lex file. */
#define BYTES(text) (const uint8_t *)(text), sizeof(text) - 1
#define SHEET                                                                                                          \
    BYTES(LEX_FILE), area1, sizeof area1, area2, sizeof area2, area3, sizeof area3, area4, sizeof area4, area5,        \
        sizeof area5, counts

/* Ends the program if an answer has not the number that is expected. */
static void expect(const char *call, uint64_t word, unsigned number)
{
    if (TROYMANTLE_NUMBER(word) != number) {
        fprintf(stderr, "bet: %s answered %u and not %u\n", call, (unsigned)TROYMANTLE_NUMBER(word), number);
        exit(1);
    }
}

static unsigned field(const uint8_t *area, size_t number)
{
    return area[2 * number] + 256u * area[2 * number + 1];
}

/* Parses a file without flags and verdicts. */
static uint64_t parse(const uint8_t *source, size_t length)
{
    return troymantle_parse(source, length, 0, source, 0, area1, sizeof area1, area2, sizeof area2, area3, sizeof area3,
                            area4, sizeof area4, area5, sizeof area5, area6, sizeof area6, counts);
}

/* How many bytes at the start of a text a pattern matches. It knows digits, blanks and plain words; other hosts have a
 * regex engine here. */
static size_t match(const char *pattern, size_t length, const char *text)
{
    if (length == 6 && memcmp(pattern, "[0-9]+", 6) == 0) {
        return strspn(text, "0123456789");
    }
    if (length == 4 && memcmp(pattern, "[ ]+", 4) == 0) {
        return strspn(text, " ");
    }
    return strncmp(pattern, text, length) == 0 ? length : 0;
}

/* Makes the row of a position: for each rule, by the text of its pattern, how many bytes it matches. */
static void make_row(unsigned position)
{
    for (unsigned rule = 0; rule < counts[1]; rule++) {
        uint64_t word = troymantle_pattern(SHEET, rule);
        expect("pattern", word, TROYMANTLE_ACCEPTED);
        const char *place = TROYMANTLE_A(word) == 1 ? (const char *)area4 : LEX_FILE;
        size_t length = match(place + TROYMANTLE_B(word), TROYMANTLE_C(word), ENTRY + position);
        row[2 * rule] = (uint8_t)(length % 256);
        row[2 * rule + 1] = (uint8_t)(length / 256);
    }
}

static uint64_t step(void)
{
    return troymantle_step(SHEET, BYTES(ENTRY), run, stack, sizeof stack, row, 2u * counts[1]);
}

/* Steps until the entry's end, and prints its tokens; run[1] is the position. */
static void print_tokens(void)
{
    uint64_t word = 0;
    while (TROYMANTLE_NUMBER(word) != TROYMANTLE_DONE) {
        make_row(run[1]);
        word = step();
        switch (TROYMANTLE_NUMBER(word)) {
        case TROYMANTLE_TOKEN:
            printf("token %d '%.*s'\n", TROYMANTLE_A(word), TROYMANTLE_C(word), ENTRY + TROYMANTLE_B(word));
            break;
        case TROYMANTLE_SKIP:
            break;
        default:
            expect("step", word, TROYMANTLE_DONE);
        }
    }
    printf("done\n");
}

/* A length above the bytes that are left, and one that ends inside the euro sign: the row is refused, and the run stays
 * where it is. */
static void show_refused_rows(void)
{
    make_row(run[1]);
    row[1] = 255;
    expect("step", step(), TROYMANTLE_ROW_MISMATCH);
    row[1] = 0;
    row[0] = 17;
    expect("step", step(), TROYMANTLE_ROW_MISMATCH);
    printf("refused by %d: rows that do not fit; the position is still %d\n", TROYMANTLE_ROW_MISMATCH, run[1]);
}

/* An entry that ends inside its last character. */
static void show_refused_text(void)
{
    uint64_t word = troymantle_start(TROYMANTLE_SELLER, 2, BYTES("\xe2\x82"), run, stack, sizeof stack);
    expect("start", word, TROYMANTLE_TEXT_MISMATCH);
    printf("refused by %d: an entry that is not UTF-8\n", TROYMANTLE_TEXT_MISMATCH);
}

/* A rule without a blank: area 6 has the fault's kind and offset, of which a call tells line and column. */
static void show_faulty_file(void)
{
    static const char faulty[] = "%%\nWIN";
    uint64_t word = parse(BYTES(faulty));
    expect("parse", word, TROYMANTLE_FAULTY_FILE);
    unsigned kind = field(area6, 1), offset = field(area6, 2);
    if (TROYMANTLE_A(word) != 1 || kind != TROYMANTLE_MISSING_SPACE) {
        exit(1);
    }
    uint32_t place[2];
    expect("line_column", troymantle_line_column(BYTES(faulty), offset, place), TROYMANTLE_ACCEPTED);
    printf("refused by %d: a file with a fault of kind %u at %u:%u\n", TROYMANTLE_FAULTY_FILE, kind, place[0],
           place[1]);
}

int main(void)
{
    show_faulty_file();
    expect("parse", parse(BYTES(LEX_FILE)), TROYMANTLE_ACCEPTED);
    expect("pattern_test", troymantle_pattern_test(SHEET, counts[1]), TROYMANTLE_BROKEN_SHEET); /* no such rule */
    uint64_t word = troymantle_link(SHEET, BYTES(NAMES), MAP, sizeof MAP, area7, sizeof area7, area8, sizeof area8);
    expect("link", word, TROYMANTLE_ACCEPTED);
    printf("%d rules, of which %d are not in the map\n", counts[1], TROYMANTLE_A(word));
    show_refused_text();
    word = troymantle_start(TROYMANTLE_SELLER, sizeof ENTRY - 1, BYTES(ENTRY), run, stack, sizeof stack);
    expect("start", word, TROYMANTLE_ACCEPTED);
    show_refused_rows();
    print_tokens();
    return 0;
}
