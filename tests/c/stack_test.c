/*
 * The stack that a call needs: every function of chains.h, over the deepest patterns and the largest days, on a thread whose whole
 * stack is CHAINS_STACK bytes with a page below it that nothing may touch. The stack is painted before, so that the test can print
 * how much of it the hungriest call took. A call that needs more ends the program by a signal.
 *
 *     gcc -std=c11 -Wall -Wextra -Werror -pedantic -Iinclude tests/c/stack_test.c target/libchains.a -lpthread -o target/stack_test
 *     target/stack_test
 */
#define _GNU_SOURCE /* MAP_ANONYMOUS */
#include "chains.h"

#include <pthread.h>
#include <stdio.h>
#include <stdlib.h>
#include <string.h>
#include <sys/mman.h>
#include <unistd.h>

enum { PATTERNS = 21, REFUSED = 2, DAYS = 5, LONGEST_PATTERN = 200, MOST_WORDS = 4214784, MOST_ENTRIES = 100000, LINES = 4096,
       PLACES = 1024 };

static const unsigned char PAINT = 0xC5;

struct bytes {
    uint8_t at[LONGEST_PATTERN];
    size_t len;
};

struct day {
    uint8_t at[CHAINS_LONGEST_RECORD];
    size_t len;
    uint16_t last; /* the last place */
};

static struct bytes patterns[PATTERNS];
static struct day days[DAYS];
static uint32_t *work;
static uint16_t *entries;
static uint16_t *chain;
static uint16_t places[PLACES];
static uint32_t lengths[PLACES];

static void fail(const char *what)
{
    printf("fails: %s\n", what);
    exit(1);
}

/* ---- patterns */

static void put(struct bytes *to, size_t times, const uint8_t *bytes, size_t count)
{
    for (size_t i = 0; i < times; i++) {
        memcpy(to->at + to->len, bytes, count);
        to->len += count;
    }
}

static void write_patterns(void)
{
    const uint8_t nothing[1] = {0x20}, line[2] = {0x21, 1}, either[1] = {0x24}, then[1] = {0x25}, repeat[1] = {0x26};
    const uint8_t keep[9] = {0x27, 1, 0, 0x27, 1, 1, 0x27, 1, 2}, same[3] = {0x22, 1, 0}, other[3] = {0x23, 1, 2};
    const uint8_t sister[3] = {0x28, 1, 0}, foreign[3] = {0x29, 1, 2}, then_foreign[4] = {0x25, 0x29, 1, 1};
    const uint8_t either_line[3] = {0x24, 0x21, 1}, then_line[3] = {0x25, 0x21, 1}, then_same[4] = {0x25, 0x22, 1, 1};
    const uint8_t mixed[6] = {0x25, 0x26, 0x24, 0x21, 2, 0x26};
    const uint8_t once[3] = {0x2A, 1, 1}, maybe[3] = {0x2A, 0, 1}, never[3] = {0x2A, 0, 0}, most[3] = {0x2A, 20, 20};
    struct bytes *p = patterns;
    /* Repeats around nothing, and around a line. */
    put(p, 62, repeat, 1), put(p++, 1, nothing, 1);
    put(p, 62, repeat, 1), put(p++, 1, line, 2);
    /* Three keeps, and repeats in them. */
    put(p, 1, keep, 9), put(p, 59, repeat, 1), put(p++, 1, nothing, 1);
    put(p, 1, keep, 9), put(p, 59, repeat, 1), put(p++, 1, same, 3);
    /* Repeats, and three keeps in them. */
    put(p, 58, repeat, 1), put(p, 1, keep, 9), put(p, 1, repeat, 1), put(p++, 1, other, 3);
    put(p, 1, keep, 9), put(p, 59, repeat, 1), put(p++, 1, sister, 3);
    put(p, 58, repeat, 1), put(p, 1, keep, 9), put(p, 1, repeat, 1), put(p++, 1, foreign, 3);
    /* Either and then, nested in their first pattern, and in their second. */
    put(p, 31, either, 1), put(p++, 32, line, 2);
    put(p, 31, then, 1), put(p++, 32, line, 2);
    put(p, 31, either_line, 3), put(p++, 1, line, 2);
    put(p, 31, then_line, 3), put(p++, 1, line, 2);
    put(p, 1, keep, 9), put(p, 29, then_same, 4), put(p++, 1, same, 3);
    put(p, 1, keep, 9), put(p, 29, then_foreign, 4), put(p++, 1, sister, 3);
    /* Then, repeat, either and repeat, nested four times, with repeats in them. */
    put(p, 4, mixed, 6), put(p, 36, repeat, 1), put(p, 1, line, 2), put(p++, 4, line, 2);
    /* Rounds in each other, one of each or none; in three keeps and around them. */
    put(p, 62, once, 3), put(p++, 1, line, 2);
    put(p, 62, maybe, 3), put(p++, 1, nothing, 1);
    put(p, 1, keep, 9), put(p, 59, once, 3), put(p++, 1, same, 3);
    put(p, 58, maybe, 3), put(p, 1, keep, 9), put(p, 1, maybe, 3), put(p++, 1, foreign, 3);
    put(p, 1, never, 3), put(p, 61, most, 3), put(p++, 1, nothing, 1);
    /* Twenty times twenty times and so on, and one repeat too many: refused, at the deepest place that is read. */
    put(p, 62, most, 3), put(p++, 1, nothing, 1);
    put(p, 63, repeat, 1), put(p++, 1, nothing, 1);
}

/* ---- days */

/* Lines from each place to the next, and from time to time to the same, of so many boats, all of them read: with an unread number no
   test passes, and a search is over sooner. Every second line has a time, the last one too. */
static void write_day(struct day *d, uint16_t places, uint32_t boats)
{
    if (!chains_length(chains_begin(d->at, sizeof d->at, places), &d->len)) {
        fail("a day is begun");
    }
    d->last = (uint16_t)(places - 1);
    for (uint32_t i = 0; i < LINES; i++) {
        const uint16_t from = (uint16_t)(i % places);
        const uint16_t to = (uint16_t)(i % 5 == 0 || from == d->last ? from : from + 1);
        const uint32_t boat = i % boats;
        const uint8_t class_ = (uint8_t)(1 + boat % 3);
        const uint64_t added = i % 2 == 0 ? chains_add(d->at, sizeof d->at, d->len, from, 1, class_, boat, to)
                                          : chains_add_timed(d->at, sizeof d->at, d->len, from, 1, class_, boat, to, i);
        if (!chains_length(added, &d->len)) {
            fail("a line is added");
        }
    }
}

static void write_days(void)
{
    write_day(&days[0], 1, 1);
    write_day(&days[1], 1024, 4096);
    write_day(&days[2], 1024, 1);
    write_day(&days[3], 2, 19); /* three keeps: 2 times 64 times 20 to the third */
    write_day(&days[4], 256, 63);
}

/* ---- windows */

/* The whole day for every kind; and for kind 1 a window that only lines with a time are inside of, and not all of these. */
static uint32_t whole_day[CHAINS_OPTIONS];
static uint32_t part_of_day[CHAINS_OPTIONS];

static void write_windows(void)
{
    for (size_t i = 0; i < CHAINS_OPTIONS; i++) {
        whole_day[i] = part_of_day[i] = i % 2 == 0 ? 0 : CHAINS_DAY;
    }
    part_of_day[1] = LINES - 100;
}

/* ---- the calls */

/* What was answered. */
struct counted {
    size_t patterns; /* that were read */
    size_t answers;  /* found or none */
    size_t found;
    size_t yes; /* of the checker, to the chains that were found */
    size_t stepped; /* searches in steps that replied as the finder did */
    size_t started; /* lists of all places, of which the first was answered, or all refused, as by the finder */
    size_t windowed; /* finds, starts, checks and searches in steps with windows of the whole day that replied as those without */
    size_t outside; /* chains that the checker accepts without windows, and not with a line outside */
    size_t days; /* whose boats were counted */
};

/* The search for a chain in steps, with windows or without: begun, moved on by one state and by some, finished. */
static uint64_t search(const struct day *d, const struct bytes *p, const uint32_t *options)
{
    size_t words = 0;
    chains_needed(chains_search_words(d->at, d->len, p->at, p->len), &words);
    const uint64_t begun =
        options == NULL ? chains_search_begin(d->at, d->len, p->at, p->len, 0, d->last, work, words)
                        : chains_search_begin_with(d->at, d->len, p->at, p->len, 0, d->last, options, CHAINS_OPTIONS, work, words);
    if (!chains_begun(begun)) {
        return begun;
    }
    chains_search_move(work, words, 1);
    chains_search_move(work, words, 1000);
    return chains_search_finish(work, words, entries, MOST_ENTRIES);
}

/* The requests about one day and one pattern; a reply may be a refusal, which ends the call sooner. */
static void ask(const struct day *d, const struct bytes *p, struct counted *counted)
{
    size_t words = 0;
    size_t length = 0;
    chains_needed(chains_words(d->at, d->len, p->at, p->len), &words);
    const uint64_t stepped = search(d, p, NULL);
    uint64_t reply = chains_find(d->at, d->len, p->at, p->len, 0, d->last, work, words, entries, MOST_ENTRIES);
    counted->answers += !chains_refused(reply);
    counted->stepped += reply == stepped;
    const uint64_t started =
        chains_starts(d->at, d->len, p->at, p->len, places, d->last + 1u, d->last, work, words, lengths, d->last + 1u);
    counted->started += chains_refused(reply) ? started == reply : started == d->last + 1u && lengths[0] == chains_value(reply);
    counted->windowed += search(d, p, whole_day) == stepped;
    counted->windowed += chains_find_with(d->at, d->len, p->at, p->len, 0, d->last, whole_day, CHAINS_OPTIONS, work, words, entries,
                                          MOST_ENTRIES) == reply;
    counted->windowed += chains_starts_with(d->at, d->len, p->at, p->len, places, d->last + 1u, d->last, whole_day, CHAINS_OPTIONS, work,
                                            words, lengths, d->last + 1u) == started;
    if (chains_found(reply, &length)) {
        counted->found++;
        const uint64_t checked = chains_check(d->at, d->len, p->at, p->len, 0, d->last, entries, length, work, words);
        counted->yes += chains_yes(checked);
        counted->windowed += chains_check_with(d->at, d->len, p->at, p->len, 0, d->last, entries, length, whole_day, CHAINS_OPTIONS, work,
                                               words) == checked;
        counted->outside += chains_no(chains_check_with(d->at, d->len, p->at, p->len, 0, d->last, entries, length, part_of_day,
                                                        CHAINS_OPTIONS, work, words));
    }
    search(d, p, part_of_day);
    chains_find_with(d->at, d->len, p->at, p->len, 0, d->last, part_of_day, CHAINS_OPTIONS, work, words, entries, MOST_ENTRIES);
    chains_starts_with(d->at, d->len, p->at, p->len, places, d->last + 1u, d->last, part_of_day, CHAINS_OPTIONS, work, words, lengths,
                       d->last + 1u);
    chains_find(d->at, d->len, p->at, p->len, d->last, 0, work, words, entries, 0);
    chains_check(d->at, d->len, p->at, p->len, 0, d->last, chain, LINES, work, words);
}

static void *call_all(void *given)
{
    struct counted *counted = given;
    uint32_t words[CHAINS_TIMED_FIELDS];
    chains_version();
    for (size_t i = 0; i < PATTERNS; i++) {
        counted->patterns += chains_written(chains_pattern(patterns[i].at, patterns[i].len, words, CHAINS_COUNTS));
        for (size_t j = 0; j < DAYS; j++) {
            ask(&days[j], &patterns[i], counted);
        }
    }
    for (size_t j = 0; j < DAYS; j++) {
        struct day *d = &days[j];
        size_t len = d->len - 14; /* without the last line */
        counted->days += chains_written(chains_boats(d->at, d->len, words, CHAINS_BOATS_COUNTS)) &&
                         chains_timed(chains_read(d->at, d->len, LINES - 1, words, CHAINS_TIMED_FIELDS));
        d->at[len - 1] = 0;
        chains_add(d->at, sizeof d->at, len, 0, 1, 1, 1, d->last);
        d->at[len - 1] = 0;
        chains_add_timed(d->at, sizeof d->at, len, 0, 1, 1, 1, d->last, 5);
        chains_begin(d->at, sizeof d->at, 1024);
    }
    return NULL;
}

static void *call_none(void *given)
{
    return given;
}

/* ---- the painted stack */

/* Runs what is given on a thread with a stack of CHAINS_STACK bytes; gives how many of them were written to. */
static size_t taken_by(void *(*run)(void *), struct counted *counted)
{
    const size_t page = (size_t)sysconf(_SC_PAGESIZE);
    unsigned char *at = mmap(NULL, page + CHAINS_STACK, PROT_READ | PROT_WRITE, MAP_PRIVATE | MAP_ANONYMOUS, -1, 0);
    if (at == MAP_FAILED || mprotect(at, page, PROT_NONE) != 0) {
        fail("memory for a stack");
    }
    unsigned char *stack = at + page;
    memset(stack, PAINT, CHAINS_STACK);
    pthread_attr_t attributes;
    pthread_t thread;
    if (pthread_attr_init(&attributes) != 0 || pthread_attr_setstack(&attributes, stack, CHAINS_STACK) != 0 ||
        pthread_create(&thread, &attributes, run, counted) != 0 || pthread_join(thread, NULL) != 0) {
        fail("a thread with such a stack");
    }
    pthread_attr_destroy(&attributes);
    size_t free_bytes = 0;
    while (free_bytes < CHAINS_STACK && stack[free_bytes] == PAINT) {
        free_bytes++;
    }
    munmap(at, page + CHAINS_STACK);
    return CHAINS_STACK - free_bytes;
}

int main(void)
{
    work = calloc(MOST_WORDS, sizeof *work);
    entries = calloc(MOST_ENTRIES, sizeof *entries);
    chain = calloc(LINES, sizeof *chain);
    if (work == NULL || entries == NULL || chain == NULL) {
        fail("memory");
    }
    for (uint16_t i = 0; i < LINES; i++) {
        chain[i] = i;
    }
    for (uint16_t i = 0; i < PLACES; i++) {
        places[i] = i;
    }
    write_patterns();
    write_days();
    write_windows();
    struct counted counted = {0, 0, 0, 0, 0, 0, 0, 0, 0};
    const size_t own = taken_by(call_none, &counted);
    const size_t taken = taken_by(call_all, &counted);
    printf("%zu answers on a stack of %d bytes; the hungriest call took %zu, beside %zu of the thread's own\n", counted.answers,
           CHAINS_STACK, taken - own, own);
    /* The last patterns alone are refused; of the requests about the others, some are too large. */
    if (counted.patterns != PATTERNS - REFUSED || counted.answers < 3 * PATTERNS || counted.found < PATTERNS ||
        counted.yes != counted.found || counted.stepped != PATTERNS * DAYS || counted.started != PATTERNS * DAYS ||
        counted.windowed != 3 * PATTERNS * DAYS + counted.found || counted.outside == 0 || counted.days != DAYS) {
        fail("the requests are answered");
    }
    free(work);
    free(entries);
    free(chain);
    return 0;
}
