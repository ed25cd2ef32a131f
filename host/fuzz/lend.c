/* What a call is lent. Each area has a place of its own:
 *
 * under valgrind a block of just its bytes, so that valgrind sees every access outside of it;
 * otherwise a block with guard bytes on both sides, or a place that ends before a page that may not be touched, or
 * begins behind one, with guard bytes on the other side. The library has no instrumentation, so these pages show where
 * it reads outside. */
#include "fuzz.h"

#include <stdio.h>
#include <stdlib.h>
#include <string.h>
#include <sys/mman.h>
#ifdef UNDER_VALGRIND
#include <valgrind/memcheck.h>
#endif

enum { GUARD = 64, GUARD_BYTE = 0x5a, PAGE = 4096 };
/* Bytes between two pages that may not be touched. */
enum { ROOM = (MOST_LENGTH + GUARD + PAGE - 1) / PAGE * PAGE };

static uint8_t *rooms[MOST_LENT];
/* What fresh areas hold: bytes from a random place on. */
enum { OLD_PLACES = 4096 };
static uint8_t old_bytes[OLD_PLACES + MOST_LENGTH];
static const struct loan *current;

static uint8_t *make_room(void)
{
    uint8_t *pages = mmap(NULL, ROOM + 2 * PAGE, PROT_READ | PROT_WRITE, MAP_PRIVATE | MAP_ANONYMOUS, -1, 0);
    if (pages == MAP_FAILED || mprotect(pages, PAGE, PROT_NONE) != 0 ||
        mprotect(pages + PAGE + ROOM, PAGE, PROT_NONE) != 0) {
        perror("fuzz: memory");
        exit(2);
    }
    return pages + PAGE;
}

void lend_begin(void)
{
    for (size_t k = 0; k < MOST_LENT; k++) {
        rooms[k] = make_room();
    }
    random_begin(0, 0);
    for (size_t k = 0; k < sizeof old_bytes; k++) {
        old_bytes[k] = (uint8_t)(1 + below(255));
    }
}

/* A block of its own; numbers are aligned, and bytes may be anywhere. */
static void place_in_block(struct lent *lent, size_t alignment)
{
#ifdef UNDER_VALGRIND
    (void)alignment;
    size_t guard_before = 0, guard_after = 0;
#else
    size_t guard_before = GUARD + placement_word() % 16 / alignment * alignment, guard_after = GUARD;
#endif
    lent->block = malloc(guard_before + lent->length + guard_after);
    if (lent->block == NULL) {
        perror("fuzz: memory");
        exit(2);
    }
    lent->bytes = lent->block + guard_before;
    lent->guard_before = guard_before;
    lent->guard_after = guard_after;
}

static void place(struct lent *lent, size_t number, size_t alignment)
{
    lent->block = NULL;
    lent->guard_before = lent->guard_after = 0;
#ifdef UNDER_VALGRIND
    unsigned kind = 2;
#else
    unsigned kind = placement_word() % 3;
#endif
    if (kind == 0) {
        lent->bytes = rooms[number] + ROOM - lent->length;
        lent->guard_before = GUARD;
    } else if (kind == 1) {
        lent->bytes = rooms[number];
        lent->guard_after = GUARD;
    } else {
        place_in_block(lent, alignment);
    }
    memset(lent->bytes - lent->guard_before, GUARD_BYTE, lent->guard_before);
    memset(lent->bytes + lent->length, GUARD_BYTE, lent->guard_after);
}

static struct lent *next_lent(struct loan *loan, enum access access, const char *name, size_t length, size_t alignment)
{
    if (loan->count == MOST_LENT) {
        fail("the harness lends too much");
    }
    struct lent *lent = &loan->lents[loan->count];
    lent->name = name;
    lent->access = access;
    lent->length = length;
    place(lent, loan->count, alignment);
    loan->count++;
    current = loan;
    return lent;
}

void lend(struct loan *loan, enum access access, const char *name, const void *before, size_t length)
{
    struct lent *lent = next_lent(loan, access, name, length, 1);
    lent->before = before;
    memcpy(lent->bytes, before, length);
}

void lend_numbers(struct loan *loan, enum access access, const char *name, const void *before, size_t count,
                  size_t width)
{
    struct lent *lent = next_lent(loan, access, name, count * width, width);
    lent->before = before;
    memcpy(lent->bytes, before, lent->length);
}

/* Under valgrind the bytes stay undefined, so that a call that goes by them is noticed. */
void lend_fresh(struct loan *loan, const char *name, size_t length, size_t alignment)
{
    struct lent *lent = next_lent(loan, WRITE, name, length, alignment);
    lent->before = old_bytes + placement_word() % OLD_PLACES;
#ifndef UNDER_VALGRIND
    memcpy(lent->bytes, lent->before, length);
#endif
}

void describe_address(const uint8_t *address, char *into, size_t length)
{
    snprintf(into, length, "%p, which is near nothing that it was lent", (const void *)address);
    for (size_t k = 0; current != NULL && k < current->count; k++) {
        const struct lent *lent = &current->lents[k];
        if (address >= lent->bytes + lent->length && address < lent->bytes + lent->length + PAGE) {
            snprintf(into, length, "byte %zu behind %s, which has %zu", (size_t)(address - lent->bytes - lent->length),
                     lent->name, lent->length);
        }
        if (address < lent->bytes && address >= lent->bytes - PAGE) {
            snprintf(into, length, "byte %zu before %s", (size_t)(lent->bytes - address), lent->name);
        }
    }
}

static bool is_guard(const uint8_t *bytes, size_t length)
{
    return length == 0 || (bytes[0] == GUARD_BYTE && memcmp(bytes, bytes + 1, length - 1) == 0);
}

static void check_valgrind(void)
{
#ifdef UNDER_VALGRIND
    if (VALGRIND_COUNT_ERRORS != 0) {
        fail("valgrind found an error, told above");
    }
#endif
}

void check_loan(const struct loan *loan)
{
    check_valgrind();
    for (size_t k = 0; k < loan->count; k++) {
        const struct lent *lent = &loan->lents[k];
        if (!is_guard(lent->bytes - lent->guard_before, lent->guard_before)) {
            fail("it wrote before %s", lent->name);
        }
        if (!is_guard(lent->bytes + lent->length, lent->guard_after)) {
            fail("it wrote behind %s", lent->name);
        }
        if (lent->access == READ && memcmp(lent->bytes, lent->before, lent->length) != 0) {
            fail("it wrote %s, which it may only read", lent->name);
        }
    }
}

void must_be_unchanged(const struct lent *lent)
{
    if (memcmp(lent->bytes, lent->before, lent->length) != 0) {
        fail("changed: %s", lent->name);
    }
}

void must_be_zero_from(const struct lent *lent, size_t from)
{
    if (from > lent->length || !are_zero(lent->bytes + from, lent->length - from)) {
        fail("not zero from byte %zu on: %s", from, lent->name);
    }
}

void end_loan(struct loan *loan)
{
    check_valgrind();
    for (size_t k = 0; k < loan->count; k++) {
        free(loan->lents[k].block);
    }
    current = NULL;
}
