/* Lex files: without faults, broken at some places, of fragments, of random bytes, and long ones. Texts for lines and
 * columns. Entries that are run over. */
#include "fuzz.h"

#include <stdio.h>
#include <string.h>

#define ADD_ONE_OF(to, list) add_text(to, (list)[below(sizeof(list) / sizeof *(list))])

static const char *const STATES[] = {"S", "T", "U2", "A.b", "Z_1", "Aa"};
static const char *const LINE_ENDS[] = {"\n", "\n", "\n", "\n", "\r\n", "\v", "\r", "\u2028", "\u2029", "\n\n"};
static const char *const BLANKS[] = {" ", " ", " ", "\t", "  ", " \t"};
static const char *const WHITESPACE[] = {" ", "\t", "\f", "\xc2\x85", "\u200e", "\u200f", " \u200e\xc2\x85"};
static const char *const PATTERNS[] = {
    "a", "b", "[0-9]+", "\\q", "\\n", "\\b", "\\x41", "\\x{41}", "\\\"", "é", "\\\\", "\\d", "a b", "(a|b)*", "\\é",
    "\\u00e9", "\\\\ ", "\\ ", "\\x", "\\+\\", "\\\t", "\\\xc2\x85", "€", "\U0001f600", "\\\U0001f600",
    "\\qa plain piece of some more bytes, so that it is copied by blocks of bytes",
};
static const char *const FRAGMENTS[] = {
    "%x S", "%s T", "%X S T", "%S", "%x", "%xS S", "%x S S", "%x INITIAL", "%y", "%%", "%%\n", "%%%%", "\n%%\n",
    "%% ", "%", "<S>", "<S,T>", "<", ">", "<+S>", "<-S>", "<INITIAL>", "< S , T>", "<Q>", "'N'", "'N", "\"N\"",
    "''", "\"\"", ";", "'", "\"", " ", "  ", "\t", "\n", "\r\n", "\r", "\v", "\f", "\xc2\x85", "\u200e", "\u200f",
    "\u2028", "\u2029", "\\", "\\\\", "\\b", "\\q", "\\x", "\\x4", "\\u{e9}", "\\ ", "\\\u2028", "//", "// c\n",
    "a", "b 'B'\n", "c ;\n", "é", "€", "\U0001f600", "\xc3", "\xe2\x80", "\xf0\x9f", "\xff", "\x80", "\xc0\x80",
    "\xed\xa0\x80", "\xf4\x90\x80\x80", "%expect-missing", "%expect-missing \"A\" \"B\"\n",
    "%expect-missing \"\" \"", "%expect-missingX A",
};

/* The name of one of the declared states, or INITIAL. */
static void add_state(struct bytes *to, size_t declared)
{
    size_t k = below(declared + 1);
    add_text(to, k == declared ? "INITIAL" : STATES[k]);
}

/* Now and then some whitespace that is no line end. */
static void add_whitespace(struct bytes *to)
{
    if (one_in(8)) {
        ADD_ONE_OF(to, WHITESPACE);
    }
}

static void add_states(struct bytes *to, size_t declared)
{
    for (size_t k = 0; k < declared; k++) {
        add_whitespace(to);
        add_text(to, one_in(2) ? "%x " : "%s ");
        add_text(to, STATES[k]);
        ADD_ONE_OF(to, LINE_ENDS);
    }
}

static void add_expected_names(struct bytes *to, size_t count)
{
    add_text(to, "%expect-missing");
    for (size_t k = 0; k < count; k++) {
        add_text(to, one_in(2) ? " \"A\"" : "\t\"é\"");
    }
    add_text(to, "\n");
}

static void add_list(struct bytes *to, size_t declared)
{
    add_text(to, "<");
    add_state(to, declared);
    for (size_t more = one_in(6) ? below(40) : below(4); more > 0; more--) {
        add_text(to, ",");
        add_whitespace(to);
        add_state(to, declared);
        add_whitespace(to);
    }
    add_text(to, ">");
}

static void add_target(struct bytes *to, size_t declared)
{
    static const char *const forms[] = {"<", "<+", "<-"};
    ADD_ONE_OF(to, forms);
    add_state(to, declared);
    add_text(to, ">");
}

/* Three numbers of four bytes grow by m, -2 m and m: Fletcher's checksum stays the same. */
static void shift(char *numbers, int m)
{
    numbers[0] = (char)(numbers[0] + m);
    numbers[4] = (char)(numbers[4] - 2 * m);
    numbers[8] = (char)(numbers[8] + m);
}

/* By the last bytes the search for the name begins near the end of the index's slots. */
void make_same_home_name(char name[SAME_HOME_LENGTH + 1], size_t number)
{
    memset(name, 'a', SAME_HOME_LENGTH);
    memcpy(name + SAME_HOME_LENGTH - 3, "239", 4);
    shift(name, (int)(number % 25));
    shift(name + SAME_HOME_LENGTH - 15, (int)(number / 25));
}

/* A name by its number, or none. */
static void add_name(struct bytes *to, size_t number)
{
    static const char *const forms[] = {"'N%zu'", "'N%zu'", "\"N%zu\"", "'a_longer.name-%zu'", "'%0130zu'", ";", "''"};
    char name[SAME_HOME_LENGTH + 40];
    if (number < SAME_HOME && one_in(8)) {
        make_same_home_name(name, number);
        add_text(to, "'");
        add_text(to, name);
        add_text(to, "'");
    } else {
        snprintf(name, sizeof name, forms[below(sizeof forms / sizeof *forms)], number);
        add_text(to, name);
    }
}

static void add_rule(struct bytes *to, size_t declared, size_t number)
{
    if (one_in(10)) {
        add_text(to, "//a ;"); /* a comment, or a rule without a name */
        ADD_ONE_OF(to, LINE_ENDS);
    }
    if (one_in(4)) {
        add_list(to, declared);
    }
    for (size_t more = below(3) + 1; more > 0; more--) {
        ADD_ONE_OF(to, PATTERNS);
    }
    ADD_ONE_OF(to, BLANKS);
    if (one_in(4)) {
        add_target(to, declared);
    }
    add_name(to, number);
    add_whitespace(to);
    ADD_ONE_OF(to, LINE_ENDS);
}

/* Rules whose names have numbers below a limit, and now and then a line that begins with a blank. */
static void add_faulty_rules(struct bytes *to, size_t declared, size_t numbers)
{
    for (size_t more = below(30); more > 0; more--) {
        if (one_in(6)) {
            add_text(to, " ");
        }
        add_rule(to, declared, below(numbers));
    }
}

static void add_rules(struct bytes *to, size_t declared, size_t rules)
{
    for (size_t k = 0; k < rules; k++) {
        add_rule(to, declared, k);
    }
}

void make_good_text(struct bytes *text)
{
    size_t declared = below(4);
    text->length = 0;
    add_states(text, declared);
    if (one_in(6)) {
        add_expected_names(text, below(12));
    }
    add_text(text, one_in(3) ? "%% " : "%%\n");
    add_rules(text, declared, one_in(20) ? below(60) : below(7));
}

static void make_fragments(struct bytes *text)
{
    text->length = 0;
    for (size_t more = below(40); more > 0; more--) {
        ADD_ONE_OF(text, FRAGMENTS);
    }
}

static void make_random_bytes(struct bytes *text)
{
    text->length = 0;
    add_random(text, below(200), ONE_OF(2, 64, 128, 256));
}

/* Puts a fragment or a random byte in the place of some bytes. */
static void change_text(struct bytes *text)
{
    static struct bytes rest;
    size_t from = below(text->length + 1), cut = one_in(3) ? below(text->length - from + 1) : below(2);
    size_t end = from + cut < text->length ? from + cut : text->length;
    copy_bytes(&rest, text->data + end, text->length - end);
    text->length = from;
    if (one_in(3)) {
        add_byte(text, (uint8_t)random_word());
    } else if (one_in(2)) {
        ADD_ONE_OF(text, FRAGMENTS);
    }
    add(text, rest.data, rest.length);
}

/* A file of just so many bytes: rules, one long line, or two fragments in turn. */
static void make_long_text(struct bytes *text, size_t length)
{
    const char *fragments[2] = {"a", "a"};
    unsigned kind = (unsigned)below(3);
    for (size_t k = 0; kind == 2 && k < 2; k++) {
        fragments[k] = FRAGMENTS[below(sizeof FRAGMENTS / sizeof *FRAGMENTS)];
    }
    make_good_text(text);
    add_text(text, kind == 1 ? " " : "\n");
    for (size_t k = 0; text->length < length; k++) {
        if (kind == 0) {
            add_rule(text, 0, 1000 + k);
        } else {
            add_text(text, fragments[k % 2]);
        }
    }
    text->length = length;
    if (one_in(2)) {
        memset(text->data + length - length % 16, '\n', length % 16); /* no character is cut at the end */
    }
}

/* As many words as there may be, or some more or less: a form that has its number, behind a beginning. */
static void make_many(struct bytes *text, const char *beginning, const char *form, size_t most)
{
    char word[32];
    size_t count = most - 2 + below(4);
    copy_bytes(text, beginning, strlen(beginning));
    for (size_t k = 0; k < count; k++) {
        snprintf(word, sizeof word, form, k);
        add_text(text, word);
    }
}

void make_text(struct bytes *text)
{
    size_t kind = below(1000);
    if (kind == 0) {
        make_many(text, "%%\n", "a '%zu'\n", TROYMANTLE_MOST_RULES);
    } else if (kind < 3) {
        make_many(text, "%x", " s%zu", TROYMANTLE_MOST_STATES);
        add_text(text, "\n%%\n<s1,s2>a <+s3>'A'\n");
    } else if (kind < 6) {
        make_long_text(text, one_in(2) ? ONE_OF(65533, 65534, 65535) : below(65536));
    } else if (kind < 10) {
        make_long_text(text, one_in(2) ? ONE_OF(65536, 65537) : 65536 + below(4465));
    } else if (kind < 100) {
        make_random_bytes(text);
    } else if (kind < 300) {
        make_fragments(text);
    } else if (kind < 400) {
        make_good_text(text);
        add_faulty_rules(text, 0, 1 + below(4));
    } else {
        make_good_text(text);
    }
    for (size_t changes = one_in(4) ? below(4) : 0; changes > 0; changes--) {
        change_text(text);
    }
}

void make_verdicts(struct bytes *verdicts)
{
    verdicts->length = 0;
    size_t length = one_in(3) ? below(12) : 0, refuses = one_in(2) ? 10 : 0;
    for (size_t k = 0; k < length; k++) {
        add_byte(verdicts, refuses != 0 && one_in(refuses) ? (uint8_t)random_word() : 0);
    }
}

/* ---- lines and columns */

static const char *const CHARACTERS[] = {"a", "z", "é", "€", "\U0001f600", "\n", "\n", "\r\n", "\r", "\v", "\u2028"};

/* Just so many bytes, of one character or of all; the last one may be cut, and one may be none of a text. */
static void make_long_place_text(struct bytes *text, size_t length)
{
    const char *one = one_in(2) ? CHARACTERS[below(sizeof CHARACTERS / sizeof *CHARACTERS)] : NULL;
    while (text->length < length) {
        if (one != NULL) {
            add_text(text, one);
        } else {
            ADD_ONE_OF(text, CHARACTERS);
        }
    }
    text->length = length;
    if (one_in(2)) {
        text->data[below(length)] = 0xff;
    }
}

void make_place_text(struct bytes *text)
{
    size_t kind = below(100);
    text->length = 0;
    if (kind < 3) {
        make_long_place_text(text, ONE_OF(65534, 65535, 65536, 65537));
    } else if (kind < 20) {
        make_text(text);
    } else {
        for (size_t more = below(24); more > 0; more--) {
            ADD_ONE_OF(text, CHARACTERS);
        }
    }
    if (one_in(8)) {
        change_text(text);
    }
}

/* ---- entries */

/* The first and last characters of each length, and some between. */
static const char *const ENTRY_CHARACTERS[] = {
    "a", "b", "\x7f", "\xc2\x80", "é", "\xdf\xbf", "\xe0\xa0\x80", "€", "\xed\x9f\xbf", "\xee\x80\x80",
    "\xef\xbf\xbf", "\xf0\x90\x80\x80", "\U0001f600", "\xf4\x8f\xbf\xbf",
};
/* What belongs to no text: half characters, surrogates, characters written too long, numbers above the last. */
static const char *const NO_CHARACTERS[] = {
    "\x80", "\xbf", "\xff", "\xc3", "\xe2\x82", "\xf0\x9f\x98", "\xc0\x80", "\xc1\xbf",
    "\xe0\x9f\xbf", "\xed\xa0\x80", "\xf0\x8f\xbf\xbf", "\xf4\x90\x80\x80", "\xf5\x80\x80\x80",
};

/* A long one has its first bytes again and again. */
void make_entry(struct bytes *text, size_t length)
{
    size_t kinds = one_in(4) ? 3 : sizeof ENTRY_CHARACTERS / sizeof *ENTRY_CHARACTERS;
    size_t first = length < 64 ? length : 64;
    text->length = 0;
    while (text->length < first) {
        const char *character = ENTRY_CHARACTERS[below(kinds)];
        add_text(text, text->length + strlen(character) <= first ? character : "z");
    }
    while (text->length + first < length) {
        add(text, text->data, first);
    }
    while (text->length < length) {
        add_byte(text, 'z');
    }
}

/* Writes over bytes, as many as are there. */
static void write_over(struct bytes *text, const char *bytes)
{
    size_t at = below(text->length), length = strlen(bytes);
    memcpy(text->data + at, bytes, length < text->length - at ? length : text->length - at);
}

void change_entry(struct bytes *text)
{
    switch (below(5)) {
    case 0:
        resize(text, other_length(text->length));
        break;
    case 1: /* the first byte goes, and the last one is there twice */
        if (text->length > 0) {
            memmove(text->data, text->data + 1, text->length - 1);
        }
        break;
    case 2:
        if (text->length > 0) {
            text->data[below(text->length)] = (uint8_t)random_word();
        }
        break;
    case 3:
        write_over(text, ENTRY_CHARACTERS[below(sizeof ENTRY_CHARACTERS / sizeof *ENTRY_CHARACTERS)]);
        break;
    default:
        write_over(text, NO_CHARACTERS[below(sizeof NO_CHARACTERS / sizeof *NO_CHARACTERS)]);
    }
}
