/* Wrong libraries for the self-test: each makes the real call, and does one thing that it must not. */
#ifndef WRONG_H
#define WRONG_H

#include <stdbool.h>

#include "troymantle.h"

#define WRONG_LIBRARIES(X)                                                                                             \
    X(parse_writes_behind_area_3)                                                                                      \
    X(parse_writes_before_area_1)                                                                                      \
    X(parse_writes_the_source)                                                                                         \
    X(parse_reads_behind_the_source)                                                                                   \
    X(parse_reads_before_the_verdicts)                                                                                 \
    X(parse_goes_by_old_bytes)                                                                                         \
    X(parse_leaves_area_4_at_a_refusal)                                                                                \
    X(parse_leaves_the_last_byte)                                                                                      \
    X(parse_counts_at_faults)                                                                                          \
    X(parse_tests_text_before_flags)                                                                                   \
    X(parse_takes_invalid_text)                                                                                        \
    X(parse_names_another_area)                                                                                        \
    X(pattern_has_another_length)                                                                                      \
    X(pattern_writes_area_2)                                                                                           \
    X(pattern_test_accepts_all)                                                                                        \
    X(link_writes_area_7_at_a_refusal)                                                                                 \
    X(link_writes_a_target)                                                                                            \
    X(link_writes_the_names)                                                                                           \
    X(link_leaves_the_last_byte_of_area_8)                                                                             \
    X(link_keeps_an_id)                                                                                                \
    X(link_takes_a_broken_map)                                                                                         \
    X(start_writes_the_run_at_a_refusal)                                                                               \
    X(start_clears_the_stack)                                                                                          \
    X(start_takes_a_short_stack)                                                                                       \
    X(start_takes_bytes_that_are_no_text)                                                                              \
    X(start_takes_a_text_of_another_length)                                                                            \
    X(start_tests_the_text_before_n)                                                                                   \
    X(start_takes_a_kiosk_entry_of_513_bytes)                                                                          \
    X(start_refuses_a_kiosk_entry_of_512_bytes)                                                                        \
    X(start_gives_a_seller_the_limit_of_a_kiosk)                                                                       \
    X(start_takes_an_unknown_kind)                                                                                     \
    X(start_takes_the_kind_by_its_low_bits)                                                                            \
    X(start_tests_n_before_the_kind)                                                                                   \
    X(start_tests_the_text_before_the_kind)                                                                            \
    X(start_does_not_write_the_kind)                                                                                   \
    X(start_writes_the_kind_at_a_refusal)                                                                              \
    X(start_writes_the_text)                                                                                           \
    X(start_reads_behind_the_text)                                                                                     \
    X(step_moves_when_done)                                                                                            \
    X(step_counts_a_move_twice)                                                                                        \
    X(step_writes_the_stack_at_a_refusal)                                                                              \
    X(step_writes_another_entry)                                                                                       \
    X(step_writes_the_row)                                                                                             \
    X(step_writes_behind_the_run)                                                                                      \
    X(step_has_another_start)                                                                                          \
    X(step_has_a_value_at_a_skip)                                                                                      \
    X(step_takes_a_broken_run)                                                                                         \
    X(step_takes_an_unknown_kind)                                                                                      \
    X(step_gives_a_kiosk_the_limit_of_a_seller)                                                                        \
    X(step_gives_a_seller_the_limit_of_a_kiosk)                                                                        \
    X(step_loses_the_kind)                                                                                             \
    X(step_tests_the_kind_before_the_text)                                                                             \
    X(step_takes_bytes_that_are_no_text)                                                                               \
    X(step_takes_a_text_of_another_length)                                                                             \
    X(step_tests_the_text_before_the_sheet)                                                                            \
    X(step_tests_the_run_before_the_text)                                                                              \
    X(step_is_done_before_the_text)                                                                                    \
    X(step_takes_a_length_that_cuts_a_character)                                                                       \
    X(step_takes_0_inside_a_character)                                                                                 \
    X(step_reads_behind_the_row)                                                                                       \
    X(step_writes_the_text)                                                                                            \
    X(step_reads_behind_the_text)                                                                                      \
    X(step_does_not_end)                                                                                               \
    X(line_column_counts_a_line_feed_to_the_next_line)                                                                 \
    X(line_column_ends_lines_at_carriage_returns)                                                                      \
    X(line_column_counts_bytes)                                                                                        \
    X(line_column_counts_from_0)                                                                                       \
    X(line_column_takes_the_inside_of_a_character)                                                                     \
    X(line_column_refuses_the_length)                                                                                  \
    X(line_column_takes_the_offset_by_its_low_bits)                                                                    \
    X(line_column_tests_text_before_length)                                                                            \
    X(line_column_tests_the_offset_before_text)                                                                        \
    X(line_column_writes_the_place_at_a_refusal)                                                                       \
    X(line_column_writes_behind_the_place)                                                                             \
    X(line_column_writes_the_source)                                                                                   \
    X(line_column_reads_behind_the_source)                                                                             \
    X(line_column_has_a_value)                                                                                         \
    X(offset_at_takes_a_column_past_the_line)                                                                          \
    X(offset_at_takes_line_0)                                                                                          \
    X(offset_at_takes_column_0)                                                                                        \
    X(offset_at_counts_bytes)                                                                                          \
    X(offset_at_refuses_the_length)                                                                                    \
    X(offset_at_takes_the_pair_by_its_low_bits)                                                                        \
    X(offset_at_tests_text_before_length)                                                                              \
    X(offset_at_tests_the_pair_before_text)                                                                            \
    X(offset_at_reads_before_the_source)                                                                               \
    X(offset_at_has_a_second_value)

#define WRONG_NUMBER(name) name,
enum wrong_library { NOT_WRONG, WRONG_LIBRARIES(WRONG_NUMBER) WRONG_END };

/* Prints the names, a line each. */
void print_wrong_libraries(void);
/* Takes one by its name; whether there is one. */
bool choose_wrong_library(const char *name);

extern __typeof__(troymantle_parse) wrong_parse;
extern __typeof__(troymantle_pattern) wrong_pattern;
extern __typeof__(troymantle_pattern_test) wrong_pattern_test;
extern __typeof__(troymantle_link) wrong_link;
extern __typeof__(troymantle_start) wrong_start;
extern __typeof__(troymantle_step) wrong_step;
extern __typeof__(troymantle_line_column) wrong_line_column;
extern __typeof__(troymantle_offset_at) wrong_offset_at;

#ifndef WRONG_C
#define troymantle_parse wrong_parse
#define troymantle_pattern wrong_pattern
#define troymantle_pattern_test wrong_pattern_test
#define troymantle_link wrong_link
#define troymantle_start wrong_start
#define troymantle_step wrong_step
#define troymantle_line_column wrong_line_column
#define troymantle_offset_at wrong_offset_at
#endif

#endif
