/* A bounded random loop over the calls, with hostile sizes, contents, sheets, maps, entries, runs, rows and places.
 *
 *     fuzz [--seed S] [--first K] [--cases N]
 *
 * What a call gives back is held to the conditions of 01 and 02 that are cheap to state. It ends with 1 at the first
 * violation, and tells the case that repeats it. */
#include "fuzz.h"

#include <inttypes.h>
#include <signal.h>
#include <stdarg.h>
#include <stdio.h>
#include <stdlib.h>
#include <string.h>
#include <time.h>
#include <unistd.h>

#ifdef SELF_TEST
enum { SECONDS_A_CASE = 5 };
#else
enum { SECONDS_A_CASE = 300 };
#endif
#ifdef UNDER_VALGRIND
#define MODE " --valgrind"
#else
#define MODE ""
#endif
/* From so many cases on a run fails if some answer was never given. */
enum { CASES_FOR_ALL = 5000 };
enum { SECONDS_OF_PROGRESS = 10 };

static const char *const CALL_NAMES[CALLS] = {"parse", "pattern", "pattern_test", "link",
                                              "start", "step",    "line_column",  "offset_at"};

static uint64_t seed = 1, first, cases = 20000, number;
static enum call call;
static uint64_t calls[CALLS], answers[TROYMANTLE_TOKEN + 1];
/* Of the words of one case, and the sum of these. */
static uint64_t digest, digests;

/* ---- calls, answers and failures */

void begin_call(enum call begun)
{
    call = begun;
}

void end_call(uint64_t word)
{
    calls[call]++;
    digest = (digest ^ word) * 0x100000001b3u;
    if (TROYMANTLE_NUMBER(word) > TROYMANTLE_TOKEN) {
        fail("the answer %#" PRIx64 " has no number", word);
    }
    answers[TROYMANTLE_NUMBER(word)]++;
}

static void tell_case(const char *violation)
{
    dprintf(STDERR_FILENO, "fuzz: seed %" PRIu64 ", case %" PRIu64 ": %s: %s\n", seed, number, CALL_NAMES[call],
            violation);
    dprintf(STDERR_FILENO, "fuzz: tools/fuzz%s --seed %" PRIu64 " --first %" PRIu64 " --cases 1 repeats it\n", MODE,
            seed, number);
}

void fail(const char *format, ...)
{
    char violation[300];
    va_list arguments;
    va_start(arguments, format);
    vsnprintf(violation, sizeof violation, format, arguments);
    va_end(arguments);
    tell_case(violation);
    _exit(1);
}

static void on_signal(int signal, siginfo_t *information, void *context)
{
    (void)context;
    char place[200], violation[300];
    if (signal == SIGALRM) {
        snprintf(violation, sizeof violation, "the case did not end within %d s", SECONDS_A_CASE);
    } else if (signal == SIGSEGV || signal == SIGBUS) {
        describe_address(information->si_addr, place, sizeof place);
        snprintf(violation, sizeof violation, "it touched %s", place);
    } else {
        snprintf(violation, sizeof violation, "signal %d", signal);
    }
    tell_case(violation);
    _exit(1);
}

static void catch_signals(void)
{
    static const int signals[] = {SIGSEGV, SIGBUS, SIGILL, SIGFPE, SIGALRM};
    struct sigaction action = {.sa_sigaction = on_signal, .sa_flags = SA_SIGINFO};
    for (size_t k = 0; k < sizeof signals / sizeof *signals; k++) {
        sigaction(signals[k], &action, NULL);
    }
}

/* ---- the whole */

static void begin_case(void)
{
    random_begin(seed, number);
    digest = 0xcbf29ce484222325u;
    alarm(SECONDS_A_CASE);
}

static void run_cases(void)
{
    time_t began = time(NULL), told = began;
    for (number = first; number - first < cases; number++) {
        begin_case();
        run_case();
        digests += digest;
        time_t now = number % 64 == 0 ? time(NULL) : told;
        if (now - told >= SECONDS_OF_PROGRESS) {
            fprintf(stderr, "fuzz: %" PRIu64 " of %" PRIu64 " cases after %lld s\n", number - first + 1, cases,
                    (long long)(now - began));
            told = now;
        }
    }
}

/* Calls by their names and answers by their numbers, in one line. */
static void print_counts(void)
{
    printf("%" PRIu64 " cases, seed %" PRIu64 "; calls:", cases, seed);
    for (size_t k = 0; k < CALLS; k++) {
        printf(" %s %" PRIu64, CALL_NAMES[k], calls[k]);
    }
    printf("; answers:");
    for (size_t k = 0; k <= TROYMANTLE_TOKEN; k++) {
        if (answers[k] != 0) {
            printf(" %zu: %" PRIu64, k, answers[k]);
        }
    }
    printf("; digest %016" PRIx64 "\n", digests);
}

/* Whether every number was seen that a call may answer. */
static bool saw_all(void)
{
    bool all = true;
    for (size_t k = 0; k <= TROYMANTLE_TOKEN; k++) {
        bool is_answer = k <= TROYMANTLE_UNKNOWN_CALLER || k >= TROYMANTLE_DONE;
        if (is_answer && answers[k] == 0) {
            fprintf(stderr, "fuzz: no call answered %zu\n", k);
            all = false;
        }
    }
    return all;
}

static uint64_t number_of(const char *text)
{
    char *end;
    uint64_t value = strtoull(text, &end, 10);
    if (*text < '0' || *text > '9' || *end != 0) {
        fprintf(stderr, "fuzz: %s is no number\n", text);
        exit(2);
    }
    return value;
}

static void read_options(int count, char **words)
{
    for (int k = 1; k < count; k += 2) {
        uint64_t *option = strcmp(words[k], "--seed") == 0    ? &seed
                           : strcmp(words[k], "--first") == 0 ? &first
                           : strcmp(words[k], "--cases") == 0 ? &cases
                                                              : NULL;
        if (option == NULL || k + 1 == count) {
            fprintf(stderr, "fuzz [--seed S] [--first K] [--cases N]\n");
            exit(2);
        }
        *option = number_of(words[k + 1]);
    }
    if (cases == 0) {
        fprintf(stderr, "fuzz: a run of no cases shows nothing\n");
        exit(2);
    }
}

/* In the self-test the first word is the name of a wrong library; without one their names are printed. */
static int skip_wrong_library(int count, char **words)
{
#ifdef SELF_TEST
    if (count == 1) {
        print_wrong_libraries();
        exit(0);
    }
    if (!choose_wrong_library(words[1])) {
        fprintf(stderr, "fuzz: there is no wrong library %s\n", words[1]);
        exit(2);
    }
    return 1;
#else
    (void)count, (void)words;
    return 0;
#endif
}

int main(int count, char **words)
{
    int skipped = skip_wrong_library(count, words);
    read_options(count - skipped, words + skipped);
    lend_begin();
    catch_signals();
    run_cases();
    print_counts();
    return cases < CASES_FOR_ALL || saw_all() ? 0 : 1;
}
