/* Troymantle: reads lex files, gives their rules token ids, and runs them over what is typed.
 *
 * Link with target/staticlib/libtroymantle.a, which `tools/library` proves and builds (x86-64). The calls have no state of
 * their own, keep nothing that they are lent, end on every input and refuse bad input by number. Of the host they ask this alone:
 * each pointer is not null and points to as many bytes or numbers as stand beside it, also where that is none; what a call may write
 * overlaps nothing else that it is lent; arrays of numbers are aligned. docs/CALLS.md has the calls in full.
 *
 * tools/declarations holds this file to the Rattle source and to the Rust declarations (host/sys/src/lib.rs). */

#ifndef TROYMANTLE_H
#define TROYMANTLE_H

#include <stddef.h>
#include <stdint.h>

#ifdef __cplusplus
extern "C" {
#endif

/* An answer is one word of four 16-bit fields: its number, and up to three values. */
#define TROYMANTLE_NUMBER(word) ((uint16_t)((uint64_t)(word) & 65535u))
#define TROYMANTLE_A(word) ((uint16_t)((uint64_t)(word) >> 16 & 65535u))
#define TROYMANTLE_B(word) ((uint16_t)((uint64_t)(word) >> 32 & 65535u))
#define TROYMANTLE_C(word) ((uint16_t)((uint64_t)(word) >> 48 & 65535u))

/* Numbers: accepted, and the refusals. */
#define TROYMANTLE_ACCEPTED 0
#define TROYMANTLE_LONG_FILE 1       /* parse, line_column, offset_at: the file has more than 65,535 bytes */
#define TROYMANTLE_UNKNOWN_FLAG 2    /* parse: the flags are above 3 */
#define TROYMANTLE_INVALID_UTF8 3    /* parse, line_column, offset_at: the file is not UTF-8 */
#define TROYMANTLE_AREA_FULL 4       /* parse, link: a record does not fit its area or passes its limit; A is the area */
#define TROYMANTLE_FAULTY_FILE 5     /* parse: area 6 has the faults; A is the number of their spans */
#define TROYMANTLE_BROKEN_SHEET 6    /* pattern, pattern_test, link, step: the sheet fails its check; the first two: or no such rule */
#define TROYMANTLE_BROKEN_MAP 7      /* link: length no multiple of 6, above 2,048 entries, a range past the names, or equal names */
#define TROYMANTLE_START_REFUSED 8   /* start: n is above the limit of the caller's kind, or the stack has fewer than 2 * (n + 1) bytes */
#define TROYMANTLE_BROKEN_RUN 9      /* step: the run's kind of caller is unknown, n above the limit of that kind, position above n, depth 0
                                        or above position + 1, moves above position, a short stack, or an id in use that is not declared */
#define TROYMANTLE_ROW_MISMATCH 10   /* step: the row has not two bytes for each rule, or a length of any rule that is above the bytes
                                        left or does not end at a character's edge */
#define TROYMANTLE_NO_SUCH_PLACE 11  /* line_column: the offset is above the file's length or inside a character; offset_at: no
                                        offset has that line and column */
#define TROYMANTLE_TEXT_MISMATCH 12  /* start, step: the entry's text is not UTF-8, or not n bytes long; tested behind 8, and behind 6 */
#define TROYMANTLE_UNKNOWN_CALLER 13 /* start: the kind of caller is neither 0, a seller, nor 1, a kiosk; tested before 8 */

/* Numbers: the answers of a step. */
#define TROYMANTLE_DONE 256     /* the position is n; nothing changed */
#define TROYMANTLE_STOPPED 257  /* no live rule matches; nothing changed */
#define TROYMANTLE_UNLINKED 258 /* the winner has a name and no id; nothing changed */
#define TROYMANTLE_SKIP 259     /* a move by a rule without a name */
#define TROYMANTLE_TOKEN 260    /* a move by a named rule; A, B, C are id, start, length */

/* Flags of a parse. */
#define TROYMANTLE_FLAG_COMMENTS 1      /* `//` skips a line */
#define TROYMANTLE_FLAG_POSIX_ESCAPES 2 /* `\b` becomes `\x08` */
#define TROYMANTLE_MOST_FLAGS 3

/* Kinds of callers: how long an entry may be depends on who starts its run. */
#define TROYMANTLE_SELLER 0
#define TROYMANTLE_KIOSK 1

/* Bytes of a record. All fields are two bytes, the low one first. */
#define TROYMANTLE_STATE_WIDTH 6    /* area 1: name start, name end, exclusive */
#define TROYMANTLE_RULE_WIDTH 28    /* area 2: has id, id, named, span start, span end, name from, name length, place, text from,
                                       text length, list from, list count, operation, target */
#define TROYMANTLE_LIST_WIDTH 2     /* area 3: a state id */
#define TROYMANTLE_EXPECTED_WIDTH 4 /* area 5: start, end */
#define TROYMANTLE_FAULT_WIDTH 8    /* area 6: fault number, kind, start, end */
#define TROYMANTLE_MAP_WIDTH 6      /* an entry of a map: from where its name starts, the name's length, id */
#define TROYMANTLE_NUMBER_WIDTH 2   /* areas 7 and 8: a rule, an entry of the map; a row: a length; a stack: a state id */

/* Limits. */
#define TROYMANTLE_MOST_SOURCE 65535    /* bytes of a file */
#define TROYMANTLE_MOST_STATES 64
#define TROYMANTLE_MOST_RULES 2048
#define TROYMANTLE_MOST_OTHERS 65535    /* list entries, rewritten bytes, expected names, fault spans */
#define TROYMANTLE_MOST_MAP 2048        /* entries of a map */
#define TROYMANTLE_MOST_ENTRY 4096      /* bytes of an entry that a seller's run goes over */
#define TROYMANTLE_MOST_KIOSK_ENTRY 512 /* bytes of an entry that a kiosk's run goes over */

/* Bytes that hold whatever the limits allow: areas 1 to 8, and a stack. */
#define TROYMANTLE_AREA1_BYTES 384
#define TROYMANTLE_AREA2_BYTES 57344
#define TROYMANTLE_AREA3_BYTES 131070
#define TROYMANTLE_AREA4_BYTES 65535
#define TROYMANTLE_AREA5_BYTES 262140
#define TROYMANTLE_AREA6_BYTES 524280
#define TROYMANTLE_AREA7_BYTES 4096
#define TROYMANTLE_AREA8_BYTES 4096
#define TROYMANTLE_STACK_BYTES 8194

/* Operations of a rule. */
#define TROYMANTLE_NONE 0
#define TROYMANTLE_REPLACE 1
#define TROYMANTLE_PUSH 2
#define TROYMANTLE_POP 3

/* Kinds of faults. */
#define TROYMANTLE_PREMATURE_END 0
#define TROYMANTLE_ROUTINES_NOT_SUPPORTED 1
#define TROYMANTLE_UNKNOWN_DECLARATION 2
#define TROYMANTLE_MISSING_SPACE 3
#define TROYMANTLE_INVALID_NAME 4
#define TROYMANTLE_UNKNOWN_START_STATE 5
#define TROYMANTLE_DUPLICATE_START_STATE 6
#define TROYMANTLE_INVALID_START_STATE 7
#define TROYMANTLE_INVALID_START_STATE_NAME 8
#define TROYMANTLE_DUPLICATE_NAME 9
#define TROYMANTLE_REGEX_ERROR 10
#define TROYMANTLE_VERBATIM_NOT_SUPPORTED 11

/* Reads a lex file into six areas; counts has how many records each holds. Byte k of the verdicts, if it is there and not 0, refuses
 * the pattern of the rule behind k others. Refuses by 1 to 5: areas and counts are zero then, but for the fault spans of 5. */
uint64_t troymantle_parse(
    const uint8_t *source, size_t source_length,
    uint64_t flags,
    const uint8_t *verdicts, size_t verdicts_length,
    uint8_t *area1, size_t area1_length,
    uint8_t *area2, size_t area2_length,
    uint8_t *area3, size_t area3_length,
    uint8_t *area4, size_t area4_length,
    uint8_t *area5, size_t area5_length,
    uint8_t *area6, size_t area6_length,
    uint16_t counts[6]);

/* Where the text of a rule's pattern stands: A is 0 for the source and 1 for area 4, B from where, C its length. Refuses by 6. */
uint64_t troymantle_pattern(
    const uint8_t *source, size_t source_length,
    const uint8_t *area1, size_t area1_length,
    const uint8_t *area2, size_t area2_length,
    const uint8_t *area3, size_t area3_length,
    const uint8_t *area4, size_t area4_length,
    const uint8_t *area5, size_t area5_length,
    const uint16_t counts[6],
    uint64_t rule);

/* 0 where the rule has a text, and 6 where it has none. */
uint64_t troymantle_pattern_test(
    const uint8_t *source, size_t source_length,
    const uint8_t *area1, size_t area1_length,
    const uint8_t *area2, size_t area2_length,
    const uint8_t *area3, size_t area3_length,
    const uint8_t *area4, size_t area4_length,
    const uint8_t *area5, size_t area5_length,
    const uint16_t counts[6],
    uint64_t rule);

/* Gives the named rules of a sheet the ids of a map. Area 7 gets the rules that are not in the map, area 8 the entries that no rule
 * names; A and B are how many. Refuses by 6, 7, 4, and then changes nothing. */
uint64_t troymantle_link(
    const uint8_t *source, size_t source_length,
    const uint8_t *area1, size_t area1_length,
    uint8_t *area2, size_t area2_length,
    const uint8_t *area3, size_t area3_length,
    const uint8_t *area4, size_t area4_length,
    const uint8_t *area5, size_t area5_length,
    const uint16_t counts[6],
    const uint8_t *names, size_t names_length,
    const uint8_t *entries, size_t entries_length,
    uint8_t *area7, size_t area7_length,
    uint8_t *area8, size_t area8_length);

/* Begins a run of a kind of caller, TROYMANTLE_SELLER or TROYMANTLE_KIOSK, over an entry of n bytes, of which the text is lent: run gets
 * n, position, depth, moves and the kind. Refuses by 13, 8, 12, and then changes nothing. */
uint64_t troymantle_start(
    uint64_t kind,
    uint64_t n,
    const uint8_t *text, size_t text_length,
    uint16_t run[5],
    uint8_t *stack, size_t stack_length);

/* Moves a run on by a row: for each rule how many bytes from the position on its pattern matches, 0 where it does not. The text is that
 * of the start. Refuses by 6, 12, 9, 10, and answers 'done' before 10. Only a skip and a token change run and stack. */
uint64_t troymantle_step(
    const uint8_t *source, size_t source_length,
    const uint8_t *area1, size_t area1_length,
    const uint8_t *area2, size_t area2_length,
    const uint8_t *area3, size_t area3_length,
    const uint8_t *area4, size_t area4_length,
    const uint8_t *area5, size_t area5_length,
    const uint16_t counts[6],
    const uint8_t *text, size_t text_length,
    uint16_t run[5],
    uint8_t *stack, size_t stack_length,
    const uint8_t *row, size_t row_length);

/* The line and the column of an offset, as an editor shows them: place gets the line, then the column. Both count from 1, the column in
 * characters. A line ends at U+000A, which is its last character. An offset equal to the file's length has a place too. Refuses by 1, 3,
 * 11, and then changes nothing. */
uint64_t troymantle_line_column(
    const uint8_t *source, size_t source_length,
    uint64_t offset,
    uint32_t place[2]);

/* The offset that has this line and column: A is the offset. Refuses by 1, 3, 11. */
uint64_t troymantle_offset_at(
    const uint8_t *source, size_t source_length,
    uint64_t line,
    uint64_t column);

#ifdef __cplusplus
}
#endif

#endif
