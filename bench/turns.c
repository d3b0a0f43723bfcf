/* Both locks by hand, from docs/LOCKS.md, and the turns of crates/slots/src/main.rt on them, with the same checksum. */

#include <inttypes.h>
#include <stdbool.h>
#include <stdint.h>
#include <stdio.h>
#include <stdlib.h>
#include <string.h>

enum { MOST_STATIONS = 16 };

enum stage { REST, TRYING, INSIDE, LEAVING, NO_STATION };

/* ---- The One-Bit lock ---- */

enum one_bit_place { OB_REST, OB_RAISE, OB_CHECK_LOW, OB_YIELD, OB_AWAIT, OB_CHECK_HIGH, OB_INSIDE, OB_LOWER };

struct one_bit {
    unsigned n;
    bool flag[MOST_STATIONS + 1];
    struct {
        enum one_bit_place place;
        unsigned j;
    } at[MOST_STATIONS + 1];
};

static enum stage one_bit_stage(const struct one_bit *lock, unsigned i)
{
    if (i < 1 || i > lock->n)
        return NO_STATION;
    switch (lock->at[i].place) {
    case OB_REST:
        return REST;
    case OB_INSIDE:
        return INSIDE;
    case OB_LOWER:
        return LEAVING;
    default:
        return TRYING;
    }
}

static bool one_bit_begin(struct one_bit *lock, unsigned i)
{
    if (one_bit_stage(lock, i) != REST)
        return false;
    lock->at[i].place = OB_RAISE;
    return true;
}

static bool one_bit_end(struct one_bit *lock, unsigned i)
{
    if (one_bit_stage(lock, i) != INSIDE)
        return false;
    lock->at[i].place = OB_LOWER;
    return true;
}

static void check_high(struct one_bit *lock, unsigned i, unsigned j)
{
    lock->at[i].place = j <= lock->n ? OB_CHECK_HIGH : OB_INSIDE;
    lock->at[i].j = j;
}

static void check_low(struct one_bit *lock, unsigned i, unsigned j)
{
    if (j >= i) {
        check_high(lock, i, i + 1);
        return;
    }
    lock->at[i].place = OB_CHECK_LOW;
    lock->at[i].j = j;
}

static bool one_bit_turn(struct one_bit *lock, unsigned i)
{
    if (i < 1 || i > lock->n)
        return false;
    unsigned j = lock->at[i].j;
    switch (lock->at[i].place) {
    case OB_REST:
    case OB_INSIDE:
        return false;
    case OB_RAISE:
        lock->flag[i] = true;
        check_low(lock, i, 1);
        break;
    case OB_CHECK_LOW:
        if (lock->flag[j])
            lock->at[i].place = OB_YIELD;
        else
            check_low(lock, i, j + 1);
        break;
    case OB_YIELD:
        lock->flag[i] = false;
        lock->at[i].place = OB_AWAIT;
        break;
    case OB_AWAIT:
        if (!lock->flag[j])
            lock->at[i].place = OB_RAISE;
        break;
    case OB_CHECK_HIGH:
        if (!lock->flag[j])
            check_high(lock, i, j + 1);
        break;
    case OB_LOWER:
        lock->flag[i] = false;
        lock->at[i].place = OB_REST;
        break;
    }
    return true;
}

/* ---- The fast lock ---- */

enum fast_place {
    F_REST,
    F_RAISE,
    F_ANNOUNCE,
    F_GLANCE,
    F_RETREAT,
    F_AWAIT,
    F_CLAIM,
    F_CONFIRM,
    F_LOWER,
    F_SCAN,
    F_RECHECK,
    F_RETRY,
    F_INSIDE,
    F_RELEASE,
    F_CLEAR
};

struct fast {
    unsigned n, x, y;
    bool flag[MOST_STATIONS + 1];
    struct {
        enum fast_place place;
        unsigned j;
    } at[MOST_STATIONS + 1];
};

static enum stage fast_stage(const struct fast *lock, unsigned i)
{
    if (i < 1 || i > lock->n)
        return NO_STATION;
    switch (lock->at[i].place) {
    case F_REST:
        return REST;
    case F_INSIDE:
        return INSIDE;
    case F_RELEASE:
    case F_CLEAR:
        return LEAVING;
    default:
        return TRYING;
    }
}

static bool fast_begin(struct fast *lock, unsigned i)
{
    if (fast_stage(lock, i) != REST)
        return false;
    lock->at[i].place = F_RAISE;
    return true;
}

static bool fast_end(struct fast *lock, unsigned i)
{
    if (fast_stage(lock, i) != INSIDE)
        return false;
    lock->at[i].place = F_RELEASE;
    return true;
}

static bool fast_turn(struct fast *lock, unsigned i)
{
    if (i < 1 || i > lock->n)
        return false;
    enum fast_place next = F_REST;
    switch (lock->at[i].place) {
    case F_REST:
    case F_INSIDE:
        return false;
    case F_RAISE:
        lock->flag[i] = true;
        next = F_ANNOUNCE;
        break;
    case F_ANNOUNCE:
        lock->x = i;
        next = F_GLANCE;
        break;
    case F_GLANCE:
        next = lock->y == 0 ? F_CLAIM : F_RETREAT;
        break;
    case F_RETREAT:
        lock->flag[i] = false;
        next = F_AWAIT;
        break;
    case F_AWAIT:
        next = lock->y == 0 ? F_RAISE : F_AWAIT;
        break;
    case F_CLAIM:
        lock->y = i;
        next = F_CONFIRM;
        break;
    case F_CONFIRM:
        next = lock->x == i ? F_INSIDE : F_LOWER;
        break;
    case F_LOWER:
        lock->flag[i] = false;
        lock->at[i].j = 1;
        next = F_SCAN;
        break;
    case F_SCAN:
        next = F_SCAN;
        if (!lock->flag[lock->at[i].j] && ++lock->at[i].j > lock->n)
            next = F_RECHECK;
        break;
    case F_RECHECK:
        next = lock->y == i ? F_INSIDE : F_RETRY;
        break;
    case F_RETRY:
        next = lock->y == 0 ? F_RAISE : F_RETRY;
        break;
    case F_RELEASE:
        lock->y = 0;
        next = F_CLEAR;
        break;
    case F_CLEAR:
        lock->flag[i] = false;
        next = F_REST;
        break;
    }
    lock->at[i].place = next;
    return true;
}

/* ---- The turns: stations first to last, again and again. One that comes inside leaves at once, and one that comes to
   rest begins again. ---- */

static uint64_t one_bit_turns(unsigned n, unsigned first, unsigned last, uint64_t count)
{
    struct one_bit lock = {.n = n};
    for (unsigned i = first; i <= last; i++)
        one_bit_begin(&lock, i);
    uint64_t sum = 0;
    unsigned i = first;
    for (uint64_t turn = 0; turn < count; turn++) {
        one_bit_turn(&lock, i);
        enum stage stage = one_bit_stage(&lock, i);
        sum = sum * 31 + stage;
        if (stage == INSIDE)
            one_bit_end(&lock, i);
        else if (stage == REST)
            one_bit_begin(&lock, i);
        i = i < last ? i + 1 : first;
    }
    return sum;
}

static uint64_t fast_turns(unsigned n, unsigned first, unsigned last, uint64_t count)
{
    struct fast lock = {.n = n};
    for (unsigned i = first; i <= last; i++)
        fast_begin(&lock, i);
    uint64_t sum = 0;
    unsigned i = first;
    for (uint64_t turn = 0; turn < count; turn++) {
        fast_turn(&lock, i);
        enum stage stage = fast_stage(&lock, i);
        sum = sum * 31 + stage;
        if (stage == INSIDE)
            fast_end(&lock, i);
        else if (stage == REST)
            fast_begin(&lock, i);
        i = i < last ? i + 1 : first;
    }
    return sum;
}

static int usage(void)
{
    fputs("turns fast|one-bit N turns-idle|turns-contended COUNT\n", stderr);
    return EXIT_FAILURE;
}

int main(int argc, char **argv)
{
    if (argc != 5)
        return usage();
    unsigned n = (unsigned)strtoul(argv[2], NULL, 10);
    if (n < 1 || n > MOST_STATIONS)
        return usage();
    unsigned first = 1, last = n;
    if (strcmp(argv[3], "turns-idle") == 0)
        first = last = n / 2 + 1;
    else if (strcmp(argv[3], "turns-contended") != 0)
        return usage();
    uint64_t count = strtoull(argv[4], NULL, 10);
    uint64_t sum;
    if (strcmp(argv[1], "fast") == 0)
        sum = fast_turns(n, first, last, count);
    else if (strcmp(argv[1], "one-bit") == 0)
        sum = one_bit_turns(n, first, last, count);
    else
        return usage();
    printf("%" PRIu64 "\n", sum);
    return EXIT_SUCCESS;
}
