/* Times the library's finder and checker, its count of boats (by the words needed with one keep), the same by hand in C, and the second
   program, on the same requests in one run; and beside the finder the library's search in steps, its lengths from many places, and the days
   with times and windows.
   Before anything is timed, each program's reply, output and cleared work area are compared with the others'. Work area and
   output are dirtied before every call, outside the clock. The calls of a sample alternate between the programs; each program
   makes as many as last at least BATCH together.

   bench [ROW...]                    the table, or these rows, numbered from 0; after it, where both were measured, the full days with
                                     a third of their lines unread by the same days read, and rounds counted by the same written out
   bench --slowest                   the slowest requests, one call each
   bench --steps [ROW...]            searches in steps beside the finder and the C: every row of the table that finds a chain, or these
                                     rows, the slowest among them where they are named
   bench --starts [ROW...]           lists of places beside the finder and the C: every row of the table that finds a chain, but for one that
                                     differs by its start alone, and rows about lists; or these rows. After it the times that it is made of
   bench --windows [ROW...]          the typical and the full days of the table, and row 60, a check, and row 61, all starts: as they are, with
                                     every line timed, and with every other line of each kind outside its window; or these rows. After it
                                     the times
   bench --call ROW PROGRAM TIMES    calls alone, for a profiler; programs are 0 library, 1 C, 2 C grouped, 3 second; in steps 5 begin and
                                     finish, 6 with one move of everything between them, 7 with moves of 1,000; of many places 8 the finder
                                     from a place without a chain, 9 a list of that place, 10 of one with a chain, 11 of all places, 12 of
                                     all four times over, 13 the finder for each place, 14 C and 15 C grouped for all places; of windows 16
                                     the day as it is, 17 timed with windows of the whole day, 18 timed with half of it outside, 19 as it is
                                     with the lines outside of kind 15 instead, 20 to 22 C on the first three

   Linked with an earlier build of the library, whose functions are then old_chains_*, it times that and the present one alone:

   bench [--differ] [ROW...]         the table, or these rows
   bench [--differ] --slowest        the table and the slowest requests
   bench --call ROW PROGRAM TIMES    as above; 4 is the earlier build

   It stops at a row where the replies of the two differ; with --differ it says what the reply was and goes on. A row whose pattern the
   earlier build refuses with 8, as one with a command that it does not have, is left out; with --differ it is timed.

   Rows have their numbers for good, so the slowest requests stand among them: 30 and 31, and 40 to 45. From 54 on they are about lists of
   places: --starts has them, and else they are measured where they are named. 60 and 61 are there for --windows; but for that 61 is row 1. */
#include "hand.h"

#include <math.h>
#include <stdio.h>
#include <stdlib.h>
#include <string.h>
#include <time.h>

uint64_t chains_words(const uint8_t *, size_t, const uint8_t *, size_t);
uint64_t chains_find(const uint8_t *, size_t, const uint8_t *, size_t, uint16_t, uint16_t, uint32_t *, size_t, uint16_t *, size_t);
uint64_t chains_check(const uint8_t *, size_t, const uint8_t *, size_t, uint16_t, uint16_t, const uint16_t *, size_t, uint32_t *,
                      size_t);
uint64_t chains_starts(const uint8_t *, size_t, const uint8_t *, size_t, const uint16_t *, size_t, uint16_t, uint32_t *, size_t, uint32_t *,
                       size_t);
uint64_t chains_find_with(const uint8_t *, size_t, const uint8_t *, size_t, uint16_t, uint16_t, const uint32_t *, size_t, uint32_t *, size_t,
                          uint16_t *, size_t);
uint64_t chains_check_with(const uint8_t *, size_t, const uint8_t *, size_t, uint16_t, uint16_t, const uint16_t *, size_t, const uint32_t *,
                           size_t, uint32_t *, size_t);
uint64_t chains_starts_with(const uint8_t *, size_t, const uint8_t *, size_t, const uint16_t *, size_t, uint16_t, const uint32_t *, size_t,
                            uint32_t *, size_t, uint32_t *, size_t);
uint64_t chains_search_words(const uint8_t *, size_t, const uint8_t *, size_t);
uint64_t chains_search_begin(const uint8_t *, size_t, const uint8_t *, size_t, uint16_t, uint16_t, uint32_t *, size_t);
uint64_t chains_search_move(uint32_t *, size_t, size_t);
uint64_t chains_search_finish(uint32_t *, size_t, uint16_t *, size_t);
__attribute__((weak)) uint64_t old_chains_words(const uint8_t *, size_t, const uint8_t *, size_t);
__attribute__((weak)) uint64_t old_chains_find(const uint8_t *, size_t, const uint8_t *, size_t, uint16_t, uint16_t, uint32_t *,
                                               size_t, uint16_t *, size_t);
__attribute__((weak)) uint64_t old_chains_check(const uint8_t *, size_t, const uint8_t *, size_t, uint16_t, uint16_t,
                                                const uint16_t *, size_t, uint32_t *, size_t);
uint64_t second_words(const uint8_t *, size_t, const uint8_t *, size_t);
uint64_t second_find(const uint8_t *, size_t, const uint8_t *, size_t, uint16_t, uint16_t, uint32_t *, size_t, uint16_t *, size_t);
uint64_t second_check(const uint8_t *, size_t, const uint8_t *, size_t, uint16_t, uint16_t, const uint16_t *, size_t, uint32_t *,
                      size_t);
size_t second_proposition_3_day(uint16_t n, uint8_t *buf);
size_t second_proposition_3_pattern(uint8_t keeps, uint8_t *buf);

enum { MOST_BYTES = 57348, MOST_LINES = 4096, MOST_PLACES = 1024, MOST_WORDS = 4 * 1048576 + 8192 + 3 * 4096, MOST_CHAIN = 1048576,
       MOST_SAMPLES = 401 };

enum { NO_PLACE = 65535 };

/* Kinds 1 to 15 have a window each; the patterns name none above 5. */
enum { DAY = 86400, KINDS = 16, OPTIONS = 2 * (KINDS - 1), NOT_NAMED = 15 };

static const double BATCH = 0.004; /* seconds of one program's calls in a sample */
static const double LONG = 1.5;    /* seconds of one call that is not repeated */

/* The same for before and after, and seconds of all samples of a row: short samples, and many, for ratios near 1. */
static const double BATCH_BEFORE = 0.001, ROW_BEFORE = 10;

/* Seconds of all samples of a row about many places, and of one about windows. */
static const double ROW_STARTS = 2, ROW_WINDOWS = 8;

static const uint64_t NO_CHAIN = 4294967295u;

/* ---- programs */

/* From STEPS on they are the library's search in steps: begin and finish, with one move of everything between them, with moves of 1,000.
   From FIND_NONE on they are about places other than the request's start: the library's finder from a place without a chain; its lists of
   that place, of one with a chain, of all places, and of all four times over; its finder for each place; and all places in C.
   From UNTIMED on they are about windows: the library without options on the day as it is, with options on the day timed, windows being the
   whole day, and half of it being outside, and without options on the day as it is with the lines outside of a kind that is not named; and
   the C on the first three. */
enum { LIBRARY, HAND, GROUPED, SECOND, BEFORE, STEPS, ONE_MOVE, THOUSANDS, FIND_NONE, ONE_NONE, ONE_FOUND, ALL, FOUR_TIMES, EACH, HAND_ALL,
       GROUPED_ALL, UNTIMED, WHOLE_DAY, HALF_OUTSIDE, OTHER_KIND, HAND_UNTIMED, HAND_WHOLE_DAY, HAND_HALF_OUTSIDE, PROGRAMS };

enum { IN_STEPS = 1 << STEPS | 1 << ONE_MOVE | 1 << THOUSANDS, OF_PLACES = (1 << UNTIMED) - (1 << FIND_NONE),
       OF_WINDOWS = (1 << PROGRAMS) - (1 << UNTIMED), OF_HALF = 1 << HALF_OUTSIDE | 1 << OTHER_KIND | 1 << HAND_HALF_OUTSIDE };

/* Is an earlier build of the library linked; and may its replies differ from the present one's? */
static int before, differ;

static uint32_t work[MOST_WORDS], lengths[4 * MOST_PLACES + 1];
static uint16_t out[MOST_CHAIN];

/* A request: to check a chain, to find one, or to say the words needed. `left_out` has the bit of each program that is not asked, or would
   take too long. What stands after it is there for the programs of OF_PLACES and OF_WINDOWS. */
struct request {
    char name[96];
    uint8_t rec[MOST_BYTES], pat[256];
    size_t rec_len, pat_len;
    uint16_t from, to;
    int check, needed;
    uint16_t *chain;
    size_t chain_len, words[PROGRAMS]; /* the words lent */
    unsigned left_out;
    size_t places;
    uint16_t starts[4 * MOST_PLACES]; /* all places, four times over */
    uint16_t none, found;             /* a place without a chain, and the nearest one with a chain; NO_PLACE where there is none */
    int listed;                       /* with OF_WINDOWS: all starts instead of one */
    uint8_t timed_rec[MOST_BYTES], other_rec[MOST_BYTES]; /* the day with times; with the lines outside of another kind */
    size_t timed_len;
    uint32_t windows[OPTIONS];
};

static uint64_t begin_search(const struct request *r, size_t words)
{
    return chains_search_begin(r->rec, r->rec_len, r->pat, r->pat_len, r->from, r->to, work, words);
}

/* How many states were taken up by the moves of the last search that was moved. */
static uint32_t taken_up;

/* A search begun, moved to its end by moves of so many states, and finished; not moved where the amount is 0. */
static uint64_t in_steps(const struct request *r, size_t words, size_t amount)
{
    uint64_t reply = begin_search(r, words), count = amount;
    if (reply != 0)
        return reply;
    if (amount > 0)
        taken_up = 0;
    while (amount > 0 && count == amount) {
        count = chains_search_move(work, words, amount);
        taken_up += count;
    }
    return chains_search_finish(work, words, out, MOST_CHAIN);
}

/* The list that a program is given. */
static const uint16_t *list_of(const struct request *r, int program, size_t *count)
{
    *count = program == ONE_NONE || program == ONE_FOUND ? 1 : program == FOUR_TIMES ? 4 * r->places : r->places;
    return program == ONE_NONE ? &r->none : program == ONE_FOUND ? &r->found : r->starts;
}

/* The lengths from all places by the finder, which is lent an output of no entries: a chain is not written then, and its length is said. */
static uint64_t each_found(const struct request *r, size_t words)
{
    for (size_t i = 0; i < r->places; i++) {
        uint64_t reply = chains_find(r->rec, r->rec_len, r->pat, r->pat_len, r->starts[i], r->to, work, words, out, 0);
        if (reply >> 32 != 0 && reply >> 32 != 19)
            return reply;
        lengths[i] = (uint32_t)reply;
    }
    return r->places;
}

static uint64_t call_of_places(const struct request *r, int program, uint32_t *reached)
{
    size_t words = r->words[program], count;
    const uint16_t *list = list_of(r, program, &count);
    switch (program) {
    case FIND_NONE:
        return chains_find(r->rec, r->rec_len, r->pat, r->pat_len, r->none, r->to, work, words, out, MOST_CHAIN);
    case EACH:
        return each_found(r, words);
    case HAND_ALL:
        return hand_starts(r->rec, r->rec_len, r->pat, r->pat_len, list, count, r->to, NULL, 0, work, words, lengths, count, reached);
    case GROUPED_ALL:
        return hand_starts_grouped(r->rec, r->rec_len, r->pat, r->pat_len, list, count, r->to, NULL, 0, work, words, lengths, count,
                                   reached);
    default:
        return chains_starts(r->rec, r->rec_len, r->pat, r->pat_len, list, count, r->to, work, words, lengths, count);
    }
}

static uint64_t call_of_windows(const struct request *r, int program, uint32_t *reached)
{
    static const uint32_t whole_day[OPTIONS] = {0, DAY, 0, DAY, 0, DAY, 0, DAY, 0, DAY, 0, DAY, 0, DAY, 0, DAY,
                                                0, DAY, 0, DAY, 0, DAY, 0, DAY, 0, DAY, 0, DAY, 0, DAY};
    const int is_half = program == HALF_OUTSIDE || program == HAND_HALF_OUTSIDE;
    const int is_timed = is_half || program == WHOLE_DAY || program == HAND_WHOLE_DAY;
    const uint8_t *rec = is_timed ? r->timed_rec : program == OTHER_KIND ? r->other_rec : r->rec, *pat = r->pat;
    const uint32_t *options = is_half ? r->windows : whole_day;
    const size_t rec_len = is_timed ? r->timed_len : r->rec_len, pat_len = r->pat_len, words = r->words[program], places = r->places;
    if (program >= HAND_UNTIMED) {
        const size_t count = is_timed ? OPTIONS : 0;
        if (r->check)
            return hand_check(rec, rec_len, pat, pat_len, r->from, r->to, r->chain, r->chain_len, options, count, work, words);
        if (r->listed)
            return hand_starts(rec, rec_len, pat, pat_len, r->starts, places, r->to, options, count, work, words, lengths, places, reached);
        return hand_find(rec, rec_len, pat, pat_len, r->from, r->to, options, count, work, words, out, MOST_CHAIN, reached);
    }
    if (is_timed) {
        if (r->check)
            return chains_check_with(rec, rec_len, pat, pat_len, r->from, r->to, r->chain, r->chain_len, options, OPTIONS, work, words);
        if (r->listed)
            return chains_starts_with(rec, rec_len, pat, pat_len, r->starts, places, r->to, options, OPTIONS, work, words, lengths, places);
        return chains_find_with(rec, rec_len, pat, pat_len, r->from, r->to, options, OPTIONS, work, words, out, MOST_CHAIN);
    }
    if (r->check)
        return chains_check(rec, rec_len, pat, pat_len, r->from, r->to, r->chain, r->chain_len, work, words);
    if (r->listed)
        return chains_starts(rec, rec_len, pat, pat_len, r->starts, places, r->to, work, words, lengths, places);
    return chains_find(rec, rec_len, pat, pat_len, r->from, r->to, work, words, out, MOST_CHAIN);
}

static uint64_t call(const struct request *r, int program, uint32_t *reached)
{
    size_t words = r->words[program];
    if (OF_PLACES >> program & 1)
        return call_of_places(r, program, reached);
    if (OF_WINDOWS >> program & 1)
        return call_of_windows(r, program, reached);
    if (r->needed)
        switch (program) {
        case LIBRARY:
            return chains_words(r->rec, r->rec_len, r->pat, r->pat_len);
        case HAND:
            return hand_words(r->rec, r->rec_len, r->pat, r->pat_len);
        case BEFORE:
            return old_chains_words(r->rec, r->rec_len, r->pat, r->pat_len);
        default:
            return second_words(r->rec, r->rec_len, r->pat, r->pat_len);
        }
    if (r->check)
        switch (program) {
        case LIBRARY:
            return chains_check(r->rec, r->rec_len, r->pat, r->pat_len, r->from, r->to, r->chain, r->chain_len, work, words);
        case HAND:
            return hand_check(r->rec, r->rec_len, r->pat, r->pat_len, r->from, r->to, r->chain, r->chain_len, NULL, 0, work, words);
        case BEFORE:
            return old_chains_check(r->rec, r->rec_len, r->pat, r->pat_len, r->from, r->to, r->chain, r->chain_len, work, words);
        default:
            return second_check(r->rec, r->rec_len, r->pat, r->pat_len, r->from, r->to, r->chain, r->chain_len, work, words);
        }
    switch (program) {
    case LIBRARY:
        return chains_find(r->rec, r->rec_len, r->pat, r->pat_len, r->from, r->to, work, words, out, MOST_CHAIN);
    case HAND:
        return hand_find(r->rec, r->rec_len, r->pat, r->pat_len, r->from, r->to, NULL, 0, work, words, out, MOST_CHAIN, reached);
    case GROUPED:
        return hand_find_grouped(r->rec, r->rec_len, r->pat, r->pat_len, r->from, r->to, NULL, 0, work, words, out, MOST_CHAIN,
                                 reached);
    case BEFORE:
        return old_chains_find(r->rec, r->rec_len, r->pat, r->pat_len, r->from, r->to, work, words, out, MOST_CHAIN);
    case STEPS:
        return in_steps(r, words, 0);
    case ONE_MOVE:
        return in_steps(r, words, SIZE_MAX);
    case THOUSANDS:
        return in_steps(r, words, 1000);
    default:
        return second_find(r->rec, r->rec_len, r->pat, r->pat_len, r->from, r->to, work, words, out, MOST_CHAIN);
    }
}

/* ---- the clock */

/* This thread's time on the processor, in seconds, so that other programs on the machine disturb it little. */
static double now(void)
{
    struct timespec t;
    clock_gettime(CLOCK_THREAD_CPUTIME_ID, &t);
    return t.tv_sec + t.tv_nsec * 1e-9;
}

/* What it costs to read the clock: taken off each call's time. */
static double clock_cost;

static void read_clock_cost(void)
{
    clock_cost = 1;
    for (int i = 0; i < 10000; i++) {
        double start = now(), cost = now() - start;
        clock_cost = cost < clock_cost ? cost : clock_cost;
    }
}

static double timed(const struct request *r, int program, uint64_t *reply, uint32_t *reached)
{
    memset(work, 0xA5, sizeof work[0] * r->words[program]);
    if (!r->check && !r->needed)
        memset(out, 0xA5, sizeof out[0] * (r->chain_len + 16));
    if (OF_PLACES >> program & 1 || r->listed)
        memset(lengths, 0xA5, sizeof lengths[0] * (4 * r->places + 1));
    double start = now();
    *reply = call(r, program, reached);
    return now() - start - clock_cost;
}

/* ---- one row of the table */

static int by_size(const void *a, const void *b)
{
    double x = *(const double *)a, y = *(const double *)b;
    return (x > y) - (x < y);
}

/* Sorts the samples, too. */
static double median(double *sample, unsigned samples)
{
    qsort(sample, samples, sizeof sample[0], by_size);
    return (sample[(samples - 1) / 2] + sample[samples / 2]) / 2;
}

static void fail(const struct request *r, const char *what)
{
    printf("%s: %s\n", r->name, what);
    exit(1);
}

/* The words to lend each program: what chains_words says, or chains_search_words, none where that refuses. */
static void lend(struct request *r)
{
    for (int p = 0; p < PROGRAMS; p++) {
        uint64_t (*needed)(const uint8_t *, size_t, const uint8_t *, size_t) = IN_STEPS >> p & 1 ? chains_search_words : chains_words;
        uint64_t words = (p == BEFORE && before ? old_chains_words : needed)(r->rec, r->rec_len, r->pat, r->pat_len);
        if (words >> 32 != 0 && !differ)
            fail(r, "refused");
        r->words[p] = words >> 32 != 0 ? 0 : words;
        if (r->words[p] > MOST_WORDS)
            fail(r, "too many words");
    }
    if (r->words[BEFORE] != r->words[LIBRARY] && !differ)
        fail(r, "the words differ");
    if (r->needed)
        memset(r->words, 0, sizeof r->words);
}

/* The lengths that a program of OF_PLACES gave: as long as its list, the same for a place as those of the first such program, which has
   all places, and nothing after them. */
static void compare_lengths(const struct request *r, int program, uint64_t reply, int is_first)
{
    static uint32_t expected[MOST_PLACES];
    size_t count;
    const uint16_t *list = list_of(r, program, &count);
    if (program == FIND_NONE) {
        if (reply != NO_CHAIN)
            fail(r, "a chain where there is none");
        return;
    }
    if (is_first)
        memcpy(expected, lengths, sizeof expected[0] * r->places);
    if (reply != count || lengths[count] != 0xA5A5A5A5)
        fail(r, "the lengths are not as many as the places listed");
    for (size_t i = 0; i < count; i++)
        if (lengths[i] != expected[list[i]])
            fail(r, "the lengths differ");
}

/* One call of each program, the replies and lent words compared; those about the half of a day that is inside by themselves. Gives each one's
   reply and time, and whether they differ. */
static int compared(struct request *r, uint64_t reply[PROGRAMS], uint32_t *reached, double time[PROGRAMS])
{
    static uint8_t expected[2][sizeof out];
    int first[2] = {-1, -1}, differing = 0;
    *reached = 0;
    for (int p = PROGRAMS - 1; p >= 0; p--) {
        if (r->left_out >> p & 1)
            continue;
        time[p] = timed(r, p, &reply[p], reached);
        for (size_t i = 0; i < r->words[p]; i++)
            if (work[i] != 0)
                fail(r, "the work area is not cleared");
        const int half = OF_HALF >> p & 1, lists = OF_WINDOWS >> p & 1 && r->listed;
        if (OF_PLACES >> p & 1) {
            compare_lengths(r, p, reply[p], first[0] < 0);
            first[0] = p;
            continue;
        }
        size_t length = r->check || r->needed || reply[p] >= NO_CHAIN ? 0 : reply[p];
        size_t bytes = length * (lists ? sizeof lengths[0] : sizeof out[0]);
        const void *given = lists ? (const void *)lengths : out;
        if (lists && (reply[p] != r->places || lengths[length] != 0xA5A5A5A5))
            fail(r, "the lengths are not as many as the places");
        if (first[half] < 0) {
            first[half] = p;
            memcpy(expected[half], given, bytes);
        } else if (reply[p] != reply[first[half]] || memcmp(given, expected[half], bytes) != 0)
            differing = 1;
        if (differing && !differ)
            fail(r, "the programs differ");
        if (!r->check && !lists && length > r->chain_len)
            r->chain_len = length;
    }
    return differing;
}

static void say(char said[24], const struct request *r, uint64_t reply)
{
    if (reply >> 32 != 0)
        snprintf(said, 24, "refused %u", (unsigned)(reply >> 32));
    else if (r->needed)
        snprintf(said, 24, "%u words", (unsigned)reply);
    else if (r->check)
        snprintf(said, 24, "%s", reply == 1 ? "yes" : "no");
    else if (r->listed)
        snprintf(said, 24, "%u lengths", (unsigned)reply);
    else if (reply == NO_CHAIN)
        snprintf(said, 24, "none");
    else
        snprintf(said, 24, "found %u", (unsigned)reply);
}

/* 0 where one of them was left out. */
static double by(double a, double b) { return a == 0 || b == 0 ? 0 : a / b; }

static void show_ratio(double x)
{
    if (x == 0)
        printf(" | %9s", "-");
    else
        printf(" | %9.2f", x);
}

/* In microseconds. */
static void show_time(double seconds)
{
    if (seconds == 0)
        printf(" | %10s", "-");
    else
        printf(" | %10.1f", seconds * 1e6);
}

/* Programs whose samples have as many calls of the one as of the other, by turns. */
enum { BY_BEFORE, NONE_BY_FIND, ALL_BY_NONE, ALL_BY_FOUND, WHOLE_BY_UNTIMED, HALF_BY_UNTIMED, HALF_BY_OTHER, RATIOS };

static const int RATIO[RATIOS][2] = {{LIBRARY, BEFORE},    {ONE_NONE, FIND_NONE},   {ALL, ONE_NONE},           {ALL, ONE_FOUND},
                                     {WHOLE_DAY, UNTIMED}, {HALF_OUTSIDE, UNTIMED}, {HALF_OUTSIDE, OTHER_KIND}};

/* What was measured: of each program the reply, the least time of a call and the median, 0 where it was left out; the states that the C's
   phase one reached; the medians of the samples' ratios; and whether the replies of before and after differ. */
struct measured {
    uint64_t reply[PROGRAMS];
    double least[PROGRAMS], middle[PROGRAMS], ratio[RATIOS];
    uint32_t reached;
    int differing;
};

static struct measured sampled(struct request *r)
{
    struct measured m = {0};
    double time[PROGRAMS] = {0}, sample[PROGRAMS][MOST_SAMPLES];
    unsigned calls[PROGRAMS] = {0}, most = 0, samples = 15;
    lend(r);
    if (r->check || r->needed)
        r->left_out |= 1 << GROUPED;
    m.differing = compared(r, m.reply, &m.reached, time);
    double round = 0, list = 0, windows = 0;
    for (int p = FIND_NONE; p <= FOUR_TIMES; p++)
        list = fmax(list, time[p]);
    for (int p = UNTIMED; p <= OTHER_KIND; p++)
        windows = fmax(windows, time[p]);
    for (int p = 0; p < PROGRAMS; p++) {
        if (r->left_out >> p & 1)
            continue;
        /* Before and after have as many calls each, by turns; so have a find and the lists, and the day with and without windows. */
        double batch = before || windows > 0 ? BATCH_BEFORE : BATCH, lasts = before ? fmax(time[LIBRARY], time[BEFORE]) : time[p];
        if (p >= FIND_NONE && p <= FOUR_TIMES)
            lasts = list;
        if (p >= UNTIMED && p <= OTHER_KIND)
            lasts = windows;
        calls[p] = lasts >= batch ? 1 : (unsigned)(batch / lasts) + 2;
        most = calls[p] > most ? calls[p] : most;
        round += time[p] >= LONG ? 0 : calls[p] * time[p];
    }
    /* Long rounds are few, and a program that takes seconds is not called again. */
    if (round > 0.3)
        samples = 5;
    if (before)
        samples = fmax(5, fmin(MOST_SAMPLES, ROW_BEFORE / round));
    else if (list > 0)
        samples = fmax(15, fmin(MOST_SAMPLES, ROW_STARTS / round));
    else if (windows > 0)
        samples = fmax(15, fmin(MOST_SAMPLES, ROW_WINDOWS / round));
    for (int p = 0; p < PROGRAMS; p++)
        for (unsigned n = 0; n < samples; n++)
            sample[p][n] = time[p] >= LONG ? time[p] : 0;
    for (unsigned n = 0; n < samples; n++) {
        for (unsigned i = 0; i < most; i++)
            for (int p = 0; p < PROGRAMS; p++) {
                uint64_t got;
                if (time[p] >= LONG || (uint64_t)i * calls[p] / most == (uint64_t)(i + 1) * calls[p] / most)
                    continue;
                sample[p][n] += timed(r, p, &got, &m.reached);
                if (got != m.reply[p])
                    fail(r, "the reply changed");
            }
    }
    /* Whatever disturbs a sample disturbs both of its times: their ratio strays less than the ratio of the medians. */
    for (int q = 0; q < RATIOS; q++) {
        double ratio[MOST_SAMPLES];
        for (unsigned n = 0; n < samples; n++)
            ratio[n] = by(sample[RATIO[q][0]][n], sample[RATIO[q][1]][n]);
        m.ratio[q] = median(ratio, samples);
    }
    for (int p = 0; p < PROGRAMS; p++)
        if (calls[p] != 0) {
            m.middle[p] = median(sample[p], samples) / calls[p];
            m.least[p] = sample[p][0] / calls[p];
        }
    return m;
}

/* Gives each program's least time, 0 where it was left out. */
static void measure(struct request *r, double least[PROGRAMS])
{
    const struct measured m = sampled(r);
    memcpy(least, m.least, sizeof m.least);
    char said[24], was[24], both[56];
    say(said, r, m.reply[LIBRARY]);
    if (before) {
        say(was, r, m.reply[BEFORE]);
        snprintf(both, sizeof both, "%s, was %s", said, strcmp(said, was) == 0 ? "another" : was);
        printf("| %-52s | %-11s | %10.1f", r->name, m.differing ? both : said, least[BEFORE] * 1e6);
        show_ratio(least[LIBRARY] / least[BEFORE]);
        show_ratio(m.ratio[BY_BEFORE]);
        printf(" |\n");
        fflush(stdout);
        return;
    }
    char states[16] = "-";
    if (!r->check && !r->needed)
        snprintf(states, sizeof states, "%u", m.reached);
    printf("| %-52s | %-11s | %7s | %10.1f", r->name, said, states, least[HAND] * 1e6);
    show_ratio(least[LIBRARY] / least[HAND]);
    show_ratio(m.middle[LIBRARY] / m.middle[HAND]);
    show_ratio(least[GROUPED] / least[HAND]);
    show_ratio(least[SECOND] / least[HAND]);
    printf(" |\n");
    fflush(stdout);
}

/* The time of a move of 1, half way through a search of so many states: the least of some samples, each of as many moves as last BATCH, or as
   there are states left. */
static double move_of_one(const struct request *r, uint32_t states)
{
    static uint32_t half_way[MOST_WORDS];
    const size_t words = r->words[STEPS];
    if (begin_search(r, words) != 0 || chains_search_move(work, words, states / 2) != states / 2)
        fail(r, "a search half way");
    memcpy(half_way, work, sizeof work[0] * words);
    double start = now(), least = 0;
    chains_search_move(work, words, 1);
    const double one = now() - start;
    const uint32_t left = states - states / 2, many = one >= BATCH ? 1 : (uint32_t)(BATCH / one) + 2, moves = many < left ? many : left;
    for (unsigned n = 0; n < 15; n++) {
        memcpy(work, half_way, sizeof work[0] * words);
        uint64_t count = 0;
        start = now();
        for (uint32_t i = 0; i < moves; i++)
            count += chains_search_move(work, words, 1);
        double time = (now() - start - clock_cost) / moves;
        if (count != moves)
            fail(r, "a move of 1");
        least = n == 0 || time < least ? time : least;
    }
    return least;
}

/* A search in steps beside the finder, and the C. */
static void measure_steps(struct request *r)
{
    r->left_out = 1 << GROUPED | 1 << SECOND | 1 << BEFORE | OF_PLACES | OF_WINDOWS;
    const struct measured m = sampled(r);
    const uint32_t states = taken_up;
    char said[24];
    say(said, r, m.reply[LIBRARY]);
    printf("| %-52s | %-11s | %7u | %10.1f", r->name, said, states, m.least[LIBRARY] * 1e6);
    show_ratio(m.least[STEPS] / m.least[LIBRARY]);
    show_ratio(m.middle[STEPS] / m.middle[LIBRARY]);
    show_ratio(m.least[HAND] / m.least[LIBRARY]);
    show_ratio(m.least[ONE_MOVE] / m.least[STEPS]);
    show_ratio(m.least[THOUSANDS] / m.least[ONE_MOVE]);
    printf(" | %10.1f |\n", move_of_one(r, states) * 1e6);
    fflush(stdout);
}

/* The list of all places, four times over. */
static void list_places(struct request *r)
{
    r->places = r->rec[1] << 8 | r->rec[2];
    for (size_t i = 0; i < 4 * r->places; i++)
        r->starts[i] = i % r->places;
}

/* All places, and of them one without a chain and the nearest with one, by what the C says. Gives how many have a chain; the states that
   its search reached go to *reached. */
static unsigned choose_places(struct request *r, uint32_t *reached)
{
    unsigned chains = 0;
    lend(r);
    list_places(r);
    r->none = r->found = NO_PLACE;
    if (call(r, GROUPED_ALL, reached) != r->places)
        fail(r, "the C refuses the places");
    for (size_t i = 0; i < r->places; i++) {
        chains += lengths[i] != NO_CHAIN;
        if (lengths[i] == NO_CHAIN)
            r->none = r->none == NO_PLACE ? i : r->none;
        else if (r->found == NO_PLACE || lengths[i] - 1 < lengths[r->found] - 1) /* the empty chain comes last */
            r->found = i;
    }
    return chains;
}

/* Lists of places beside the finder from a place without a chain, the finder for each place, and the C, but not the plain C where that
   takes too long. The list of one is that of the place without a chain, where there is such a place. Gives each program's least time. */
static void measure_starts(struct request *r, int too_long, double least[PROGRAMS])
{
    uint32_t reached;
    const unsigned chains = choose_places(r, &reached);
    const int all_have = r->none == NO_PLACE, none_has = r->found == NO_PLACE;
    r->left_out = ~OF_PLACES | (too_long ? 1 << HAND_ALL : 0) | (all_have ? 1 << FIND_NONE | 1 << ONE_NONE : 0) |
                  (none_has ? 1 << ONE_FOUND : 0);
    const struct measured m = sampled(r);
    memcpy(least, m.least, sizeof m.least);
    printf("| %-52s | %4zu | %4u | %7u", r->name, r->places, chains, reached);
    show_time(least[FIND_NONE]);
    show_ratio(by(least[ONE_NONE], least[FIND_NONE]));
    show_ratio(m.ratio[NONE_BY_FIND]);
    show_ratio(by(least[ALL], least[all_have ? ONE_FOUND : ONE_NONE]));
    show_ratio(m.ratio[all_have ? ALL_BY_FOUND : ALL_BY_NONE]);
    printf(" | %9.5f", by(least[ALL], least[EACH]));
    show_ratio(by(least[ALL], least[HAND_ALL]));
    show_ratio(by(least[GROUPED_ALL], least[HAND_ALL]));
    printf(" |\n");
    fflush(stdout);
}

/* The day with a time for every line, and a window for every kind. Of each two lines of a kind that follow each other one is inside and the
   other is not: the first is inside, but where the shortest chain has the second of them and not the first; so the same chain is found, unless
   it has both. */
static void give_windows(struct request *r)
{
    static uint8_t inside[MOST_LINES], chained[MOST_LINES];
    unsigned count = (r->rec_len - 4) / 10, waiting[KINDS] = {0}, met[KINDS] = {0};
    lend(r);
    list_places(r);
    const uint64_t length = chains_find(r->rec, r->rec_len, r->pat, r->pat_len, r->from, r->to, work, r->words[UNTIMED], out, MOST_CHAIN);
    memset(chained, 0, sizeof chained);
    for (size_t i = 0; length < NO_CHAIN && i < length; i++)
        chained[out[i]] = 1;
    for (unsigned i = 0; i < count; i++) {
        const unsigned kind = r->rec[3 + 10 * i + 3], first = waiting[kind];
        inside[i] = met[kind]++ % 2 == 0;
        if (!inside[i] && chained[i] && !chained[first]) {
            inside[first] = 0;
            inside[i] = 1;
        }
        waiting[kind] = i;
    }
    for (unsigned kind = 1; kind < KINDS; kind++) {
        r->windows[2 * kind - 2] = 30000 + 1000 * kind;
        r->windows[2 * kind - 1] = 42000 + 1000 * kind;
    }
    memcpy(r->other_rec, r->rec, r->rec_len);
    memcpy(r->timed_rec, r->rec, 3);
    uint8_t *line = r->timed_rec + 3;
    for (unsigned i = 0; i < count; i++, line += 14) {
        const unsigned kind = r->rec[3 + 10 * i + 3], open = r->windows[2 * kind - 2], close = r->windows[2 * kind - 1];
        /* By turns at the opening second and at the closing one: inside from the one on and up to the other, outside away from them. */
        const unsigned early = i % 2 == 0, turn = i / 2;
        const unsigned time = inside[i] ? (early ? open + turn : close - 1 - turn) : early ? open - 1 - turn : close + turn;
        memcpy(line, r->rec + 3 + 10 * i, 10);
        line[0] = 3;
        line[10] = time >> 24;
        line[11] = time >> 16;
        line[12] = time >> 8;
        line[13] = time;
        if (!inside[i])
            r->other_rec[3 + 10 * i + 3] = NOT_NAMED;
    }
    *line = 0;
    r->timed_len = line + 1 - r->timed_rec;
}

/* A day as it is, timed, and with half of it outside; and the C. Gives each program's least time. */
static void measure_windows(struct request *r, double least[PROGRAMS])
{
    r->left_out = ~OF_WINDOWS;
    give_windows(r);
    const struct measured m = sampled(r);
    memcpy(least, m.least, sizeof m.least);
    char said[24], half[24];
    say(said, r, m.reply[UNTIMED]);
    say(half, r, m.reply[HALF_OUTSIDE]);
    printf("| %-52s | %-10s | %-10s | %10.1f", r->name, said, half, least[UNTIMED] * 1e6);
    show_ratio(least[WHOLE_DAY] / least[UNTIMED]);
    show_ratio(m.ratio[WHOLE_BY_UNTIMED]);
    show_ratio(least[HALF_OUTSIDE] / least[UNTIMED]);
    show_ratio(m.ratio[HALF_BY_UNTIMED]);
    show_ratio(least[HALF_OUTSIDE] / least[OTHER_KIND]);
    show_ratio(m.ratio[HALF_BY_OTHER]);
    printf(" |\n");
    fflush(stdout);
}

/* The slowest requests: one call of each program, not repeated. */
static void measure_once(struct request *r)
{
    double time[PROGRAMS] = {0};
    uint64_t reply[PROGRAMS];
    uint32_t reached;
    lend(r);
    compared(r, reply, &reached, time);
    printf("| %-52s | %s | %7u | %9.2f | %9.2f | %9.2f |\n", r->name, reply[LIBRARY] == NO_CHAIN ? "none" : "found", reached,
           time[HAND], time[GROUPED], time[LIBRARY]);
    fflush(stdout);
}

/* ---- writing records and patterns */

static uint64_t seed;

static unsigned below(unsigned limit)
{
    seed = seed * 6364136223846793005u + 1442695040888963407u;
    return (unsigned)((seed >> 33) % limit);
}

static void begin_day(struct request *r, unsigned places)
{
    const uint8_t empty[4] = {1, places >> 8, places, 0};
    memcpy(r->rec, empty, 4);
    r->rec_len = 4;
}

static void add(struct request *r, unsigned from, unsigned kind, unsigned class, unsigned sail, unsigned to)
{
    const uint8_t line[11] = {2, from >> 8, from, kind, class, sail >> 16, sail >> 8, sail, to >> 8, to, 0};
    memcpy(r->rec + r->rec_len - 1, line, 11);
    r->rec_len += 10;
}

static unsigned lines(const struct request *r) { return (r->rec_len - 4) / 10; }

/* The lines of a day in another order: they are written as they come in. */
static void shuffle(struct request *r)
{
    for (unsigned i = lines(r) - 1; i > 0; i--) {
        uint8_t kept[10], *a = r->rec + 3 + 10 * i, *b = r->rec + 3 + 10 * below(i + 1);
        memcpy(kept, a, 10);
        memcpy(a, b, 10);
        memcpy(b, kept, 10);
    }
}

enum { NOTHING = 0x20, LINE, SAME, OTHER, EITHER, THEN, REPEAT, KEEP, SISTER, FOREIGN, COUNTED };

static void byte(struct request *r, unsigned b) { r->pat[r->pat_len++] = b; }

static void command(struct request *r, unsigned code, unsigned kind, unsigned slot)
{
    byte(r, code);
    byte(r, kind);
    if (code != LINE)
        byte(r, slot);
}

/* One of `count` patterns, each this test of the kind and one of the slots. */
static void tests(struct request *r, unsigned test, unsigned count, unsigned kind, unsigned slots)
{
    for (unsigned i = 0; i < count; i++) {
        if (i + 1 < count)
            byte(r, EITHER);
        command(r, test, kind, i % slots);
    }
}

/* Three rounds of what `round` writes: counted, or written out. */
static void three(struct request *r, void (*round)(struct request *), int counted)
{
    if (counted) {
        byte(r, COUNTED);
        byte(r, 3);
        byte(r, 3);
        round(r);
        return;
    }
    byte(r, THEN);
    round(r);
    byte(r, THEN);
    round(r);
    round(r);
}

static struct request *fresh(const char *name)
{
    struct request *r = calloc(1, sizeof *r);
    snprintf(r->name, sizeof r->name, "%s", name);
    r->left_out = (before ? 1 << HAND | 1 << GROUPED | 1 << SECOND : 1 << BEFORE) | IN_STEPS | OF_PLACES | OF_WINDOWS;
    seed = 1;
    return r;
}

/* ---- the cases */

/* Desk 0, start 1, four of the marks 2 to 8 for each class, hut 9. 60 boats in three classes; a few do not start or finish. */
static void typical_record(struct request *r)
{
    static const uint8_t course[3][4] = {{2, 3, 4, 5}, {3, 5, 7, 8}, {6, 4, 2, 8}};
    begin_day(r, 10);
    for (unsigned b = 0; b < 60; b++) {
        unsigned class = b % 3, sail = 100 + b;
        const uint8_t *mark = course[class];
        add(r, 0, 1, class + 1, sail, 1);
        if (b % 20 == 19)
            continue;
        add(r, 1, 2, class + 1, sail, mark[0]);
        for (unsigned m = 0; m < 3; m++)
            add(r, mark[m], 3, class + 1, sail, mark[m + 1]);
        if (b % 10 != 4)
            add(r, mark[3], 4, class + 1, sail, 9);
        else
            add(r, mark[3], 5, class + 1, sail, 0);
    }
    while (lines(r) < 400) /* roundings seen without a number */
        add(r, 2 + below(7), 3, 0, 0, 2 + below(7));
    shuffle(r);
    r->from = 0;
    r->to = 9;
}

/* A boat entered; by the test that boat, another of its class or one of another class started, rounded or not, and finished. */
static struct request *typical_day(const char *name, unsigned test)
{
    struct request *r = fresh(name);
    typical_record(r);
    command(r, KEEP, 1, 0);
    byte(r, THEN);
    command(r, test, 2, 0);
    byte(r, THEN);
    byte(r, REPEAT);
    command(r, test, 3, 0);
    command(r, test, 4, 0);
    return r;
}

/* Desk 0, start 1, marks 2 to 18, hut 19. 299 boats in five classes sail two laps of their class's five marks. */
static void full_record(struct request *r)
{
    static const uint8_t course[5][5] = {{2, 3, 4, 5, 6}, {7, 8, 9, 10, 11}, {12, 13, 14, 15, 16}, {17, 18, 2, 9, 14},
                                         {4, 10, 16, 17, 7}};
    begin_day(r, 20);
    for (unsigned b = 0; b < 299; b++) {
        unsigned class = b % 5, sail = 1000 + b;
        const uint8_t *mark = course[class];
        add(r, 0, 1, class + 1, sail, 1);
        add(r, 1, 2, class + 1, sail, mark[0]);
        for (unsigned m = 0; m < 10; m++)
            add(r, mark[m % 5], 3, class + 1, sail, mark[(m + 1) % 5]);
        add(r, mark[0], 4, class + 1, sail, 19);
    }
    while (lines(r) < 4096)
        add(r, 2 + below(17), 3, 0, 0, 2 + below(17));
    shuffle(r);
    r->from = 0;
    r->to = 19;
}

/* That boat rounded five times. */
static void lap(struct request *r)
{
    for (unsigned m = 0; m < 5; m++) {
        if (m < 4)
            byte(r, THEN);
        command(r, SAME, 3, 0);
    }
}

/* A third of the day's lines lose their numbers; as many boats are left, since none loses all of its lines. */
static void unread_third(struct request *r)
{
    for (unsigned i = 0; i < lines(r); i += 3)
        memset(r->rec + 3 + 10 * i + 4, 0, 4);
}

static struct request *full_day_laps(void)
{
    struct request *r = fresh("full day, whole laps");
    full_record(r);
    /* Entered, that boat started, a lap, any more whole laps, finished. */
    command(r, KEEP, 1, 0);
    byte(r, THEN);
    command(r, SAME, 2, 0);
    byte(r, THEN);
    lap(r);
    byte(r, THEN);
    byte(r, REPEAT);
    lap(r);
    command(r, SAME, 4, 0);
    return r;
}

static struct request *full_day_twice(void)
{
    struct request *r = fresh("full day, started twice");
    full_record(r);
    /* Entered; twice: that boat started, anything rounded; that boat finished. */
    command(r, KEEP, 1, 0);
    for (unsigned start = 0; start < 2; start++) {
        byte(r, THEN);
        command(r, SAME, 2, 0);
        byte(r, THEN);
        byte(r, REPEAT);
        command(r, LINE, 3, 0);
    }
    command(r, SAME, 4, 0);
    return r;
}

static struct request *full_day_others(const char *name, unsigned test)
{
    struct request *r = fresh(name);
    full_record(r);
    /* Entered; twice, by the test: another boat started, others rounded; another finished. */
    command(r, KEEP, 1, 0);
    for (unsigned start = 0; start < 2; start++) {
        byte(r, THEN);
        command(r, test, 2, 0);
        byte(r, THEN);
        byte(r, REPEAT);
        command(r, test, 3, 0);
    }
    command(r, test, 4, 0);
    return r;
}

/* The same request about the same day, a third of its lines unread. */
static struct request *with_third_unread(struct request *r)
{
    unread_third(r);
    strcat(r->name, ", a third unread");
    return r;
}

/* The place that the first line into a place comes from. */
static unsigned place_before(const struct request *r, unsigned place)
{
    const uint8_t *line = r->rec + 3;
    while (line[8] * 256u + line[9] != place)
        line += 10;
    return line[1] * 256u + line[2];
}

/* 1,024 places in two halves that no line joins, 4,096 lines of one kind, so many boats of so many classes; the goal in the second half. */
static void two_halves(struct request *r, unsigned boats, unsigned classes)
{
    begin_day(r, 1024);
    for (unsigned i = 0; i < 4096; i++) {
        unsigned half = i % 2 * 512;
        add(r, half + below(512), 1, 1 + i % boats % classes, i % boats, half + below(512));
    }
    r->to = 512;
}

/* Two halves, 63 boats: size 1,048,576. */
static struct request *largest_one_keep(const char *name, int near, unsigned test, unsigned classes)
{
    struct request *r = fresh(name);
    two_halves(r, 63, classes);
    r->from = near ? place_before(r, place_before(r, 512)) : 0;
    /* A boat kept, then others by the test, and any line last. */
    command(r, KEEP, 1, 0);
    byte(r, THEN);
    byte(r, REPEAT);
    tests(r, test, 6, 1, 1);
    command(r, LINE, 1, 0);
    return r;
}

/* Four places in two halves that no line joins, 63 boats, two keeps: size 1,048,576. */
static struct request *largest_two_keeps(void)
{
    struct request *r = fresh("largest size, 4 places, two keeps");
    begin_day(r, 4);
    for (unsigned i = 0; i < 400; i++)
        add(r, i % 2 * 2 + below(2), 1, 1, i % 63, i % 2 * 2 + below(2));
    r->from = 0;
    r->to = 2;
    /* A boat kept, others, a boat kept, others than either. The repeats in front add nothing but positions. */
    for (unsigned i = 0; i < 24; i++)
        byte(r, REPEAT);
    command(r, KEEP, 1, 0);
    byte(r, THEN);
    byte(r, REPEAT);
    command(r, OTHER, 1, 0);
    command(r, KEEP, 1, 1);
    byte(r, REPEAT);
    tests(r, OTHER, 17, 1, 2);
    return r;
}

static struct request *proposition_3(unsigned n, unsigned keeps, const char *name)
{
    struct request *r = fresh(name);
    r->rec_len = second_proposition_3_day(n, r->rec);
    r->pat_len = second_proposition_3_pattern(keeps, r->pat);
    r->from = 0;
    r->to = n + 2;
    return r;
}

/* Any number of laps of two lines, the boat of the first being that of the second. */
static struct request *long_check(void)
{
    static const uint16_t lines[4] = {0, 1, 3, 2};
    struct request *r = fresh("check, 1,000,000 entries");
    begin_day(r, 2);
    add(r, 0, 1, 1, 1, 1);
    add(r, 1, 2, 1, 1, 0);
    add(r, 1, 2, 2, 1, 0);
    add(r, 0, 1, 2, 1, 1);
    byte(r, REPEAT);
    command(r, KEEP, 1, 0);
    byte(r, EITHER);
    command(r, SAME, 2, 0);
    byte(r, THEN);
    command(r, SAME, 2, 0);
    byte(r, NOTHING);
    r->check = 1;
    r->chain_len = 1000000;
    r->chain = malloc(sizeof r->chain[0] * r->chain_len);
    for (size_t i = 0; i < r->chain_len; i++)
        r->chain[i] = lines[i % 4];
    return r;
}

/* Lines before, a boat kept, lines after, that boat again: each of 255 boats may be the kept one, at two positions, and two
   states have none. */
static struct request *wide_check(void)
{
    struct request *r = fresh("check, 20,000 entries, 512 states alive");
    begin_day(r, 1);
    for (unsigned i = 0; i < 255; i++)
        add(r, 0, 1, 1, i, 0);
    add(r, 0, 2, 1, 77, 0);
    byte(r, THEN);
    byte(r, REPEAT);
    command(r, LINE, 1, 0);
    command(r, KEEP, 1, 0);
    byte(r, THEN);
    byte(r, REPEAT);
    command(r, LINE, 1, 0);
    command(r, SAME, 2, 0);
    r->check = 1;
    r->chain_len = 20000;
    r->chain = malloc(sizeof r->chain[0] * r->chain_len);
    for (size_t i = 0; i < r->chain_len; i++)
        r->chain[i] = i % 255;
    r->chain[r->chain_len - 1] = 255;
    return r;
}

/* Places in two halves that no line joins, so that all is gone through that leads to the goal, and all that the start leads to. */
static struct request *growth(const char *name, unsigned places, unsigned count, unsigned boats, unsigned keeps)
{
    struct request *r = fresh("");
    snprintf(r->name, sizeof r->name, "%s: %u lines, %u places, %u boats, keeps %u", name, count, places, boats, keeps);
    begin_day(r, places);
    for (unsigned i = 0; i < count; i++) {
        unsigned half = i % 2 * (places / 2);
        add(r, half + below(places / 2), 1, 1, i / 2 % boats, half + below(places / 2));
    }
    r->from = 0;
    r->to = places / 2;
    /* Boats kept one inside the other, with others after each. */
    for (unsigned k = 0; k < keeps; k++) {
        command(r, KEEP, 1, k);
        byte(r, THEN);
        byte(r, REPEAT);
        command(r, OTHER, 1, k);
    }
    byte(r, REPEAT);
    command(r, LINE, 1, 0);
    return r;
}

/* One place, 4,096 lines, as many positions that follow each other as there can be, each with the test. The first keep is of a
   kind that no line has. */
static struct request *slowest(const char *name, unsigned test, unsigned boats, unsigned classes, unsigned keeps)
{
    struct request *r = fresh(name);
    begin_day(r, 1);
    for (unsigned i = 0; i < 4096; i++)
        add(r, 0, 1, 1 + i % boats % classes, i % boats, 0);
    for (unsigned k = 0; k < keeps; k++)
        command(r, KEEP, k == 0 ? 2 : 1, k);
    byte(r, REPEAT);
    if (keeps == 2) /* to have 63 commands */
        byte(r, REPEAT);
    tests(r, test, (63 - keeps) / 2, 1, keeps);
    r->left_out |= 1 << SECOND;
    return r;
}

/* The words needed with one keep, so that boats are counted and nothing is searched: one place, 4,096 lines. */
static struct request *counted_boats(const char *name, unsigned boats)
{
    struct request *r = fresh(name);
    begin_day(r, 1);
    for (unsigned i = 0; i < 4096; i++)
        add(r, 0, 1, 1, i % boats, 0);
    command(r, KEEP, 1, 0);
    byte(r, NOTHING);
    r->needed = 1;
    return r;
}

/* ---- three rounds, written out and counted */

static void rounding(struct request *r) { command(r, SAME, 3, 0); }

/* Any number of others, by either of two commands. */
static void others(struct request *r)
{
    byte(r, REPEAT);
    tests(r, OTHER, 2, 1, 1);
}

/* A boat entered, that boat started, three rounds, and it finished. */
static struct request *three_sailed(const char *name, void (*record)(struct request *), void (*round)(struct request *), int counted)
{
    struct request *r = fresh(name);
    record(r);
    command(r, KEEP, 1, 0);
    byte(r, THEN);
    command(r, SAME, 2, 0);
    byte(r, THEN);
    three(r, round, counted);
    command(r, SAME, 4, 0);
    return r;
}

/* Two halves, 55 boats: size 1,032,192 written out and 974,848 counted. */
static struct request *three_large(const char *name, int counted)
{
    struct request *r = fresh(name);
    two_halves(r, 55, 1);
    r->from = 0;
    /* A boat kept, three rounds of others, and any line last. */
    command(r, KEEP, 1, 0);
    byte(r, THEN);
    three(r, others, counted);
    command(r, LINE, 1, 0);
    return r;
}

/* ---- lists of places */

/* The full day, nothing kept: entered, started, ten to twenty roundings, finished, by whichever boats. */
static struct request *full_day_any(const char *name)
{
    struct request *r = fresh(name);
    full_record(r);
    byte(r, THEN);
    command(r, LINE, 1, 0);
    byte(r, THEN);
    command(r, LINE, 2, 0);
    byte(r, THEN);
    byte(r, COUNTED);
    byte(r, 10);
    byte(r, 20);
    command(r, LINE, 3, 0);
    command(r, LINE, 4, 0);
    return r;
}

/* Two halves, nothing kept: ten to twenty rounds of two lines, size 63,488. */
static struct request *rounds_of_two(const char *name)
{
    struct request *r = fresh(name);
    two_halves(r, 63, 1);
    byte(r, COUNTED);
    byte(r, 10);
    byte(r, 20);
    byte(r, THEN);
    command(r, LINE, 1, 0);
    command(r, LINE, 1, 0);
    return r;
}

/* Two halves, 63 commands: any lines by one of 31 positions, each of which a chain can begin with, or with a keep by one of 30 or two lines
   of different boats. The search size is the largest that there is without a keep, 65,536, and with a keep and 15 boats, 1,048,576. */
static struct request *many_beginnings(const char *name, int keep)
{
    struct request *r = fresh(name);
    two_halves(r, 15, 1);
    byte(r, REPEAT);
    if (keep) {
        byte(r, EITHER);
        command(r, KEEP, 1, 0);
        command(r, OTHER, 1, 0);
    } else
        byte(r, REPEAT);
    tests(r, LINE, keep ? 30 : 31, 1, 1);
    return r;
}

/* The same without a keep, the lines into the goal leading to the place after it: nothing is searched, and all places are looked up. */
static struct request *goal_apart(const char *name)
{
    struct request *r = many_beginnings(name, 0);
    for (uint8_t *line = r->rec + 3; *line == 2; line += 10)
        if (line[8] * 256u + line[9] == r->to)
            line[9]++;
    return r;
}

/* ---- for windows */

/* The chain that is found on the full day, whole laps, checked. */
static struct request *full_day_check(void)
{
    struct request *r = full_day_laps();
    strcat(r->name, ": check");
    const uint64_t words = chains_words(r->rec, r->rec_len, r->pat, r->pat_len);
    if (words > MOST_WORDS)
        fail(r, "refused");
    r->chain_len = chains_find(r->rec, r->rec_len, r->pat, r->pat_len, r->from, r->to, work, words, out, MOST_CHAIN);
    if (r->chain_len >= NO_CHAIN)
        fail(r, "no chain to check");
    r->chain = malloc(sizeof r->chain[0] * r->chain_len);
    memcpy(r->chain, out, sizeof r->chain[0] * r->chain_len);
    r->check = 1;
    return r;
}

/* The lengths from all places of that day: the request is the same. */
static struct request *full_day_starts(void)
{
    struct request *r = full_day_laps();
    strcat(r->name, ": all starts");
    return r;
}

/* ---- the runs */

/* The full days stand by twos, each request about the day read and then about the day with a third unread; so do rounds, written out
   and then counted. */
enum { FULL = 1, FULL_END = 7, CASES = 14, SLOWEST = CASES + 16, CLASSES = SLOWEST + 2, FULL_CLASSES = CLASSES + 2,
       FULL_CLASSES_END = FULL_CLASSES + 4, SLOWEST_CLASSES = FULL_CLASSES_END + 2, ROUNDS = SLOWEST_CLASSES + 6, ROUNDS_END = ROUNDS + 6,
       LISTS = ROUNDS_END + 2, LISTS_END = LISTS + 6, ALL_STARTS = LISTS_END + 1, ROWS = LISTS_END + 2 };

/* The row that is another one from another start, so that their lists are the same. */
enum { NEAR_BY = 8 };

/* Is the row one of the slowest requests, which stand apart from the table? */
static int is_slowest(int i) { return (i >= SLOWEST && i < CLASSES) || (i >= SLOWEST_CLASSES && i < ROUNDS); }

/* Does the row stand apart from the table, as the rows about lists of places and about windows do too? */
static int is_apart(int i) { return is_slowest(i) || i >= LISTS; }

/* Is the row about the typical or the full day, in the table, or there for windows? */
static int is_day(int i)
{
    return i < FULL_END || (i >= CLASSES && i < FULL_CLASSES_END) || (i >= ROUNDS && i < ROUNDS + 4) || i >= LISTS_END;
}

static struct request *row(unsigned i)
{
    switch (i) {
    case 0:
        return typical_day("typical day", SAME);
    case 1:
        return full_day_laps();
    case 2:
        return with_third_unread(full_day_laps());
    case 3:
        return full_day_twice();
    case 4:
        return with_third_unread(full_day_twice());
    case 5:
        return full_day_others("full day, others twice", OTHER);
    case 6:
        return with_third_unread(full_day_others("full day, others twice", OTHER));
    case 7:
        return largest_one_keep("largest size, 1,024 places, one keep", 0, OTHER, 1);
    case NEAR_BY:
        return largest_one_keep("largest size, 1,024 places, a chain near by", 1, OTHER, 1);
    case 9:
        return largest_two_keeps();
    case 10:
        return proposition_3(168, 1, "Proposition 3, largest size, one keep");
    case 11:
        return proposition_3(6, 3, "Proposition 3, largest size, three keeps");
    case 12:
        return long_check();
    case 13:
        return wide_check();
    case SLOWEST:
        return slowest("one place, 4,096 lines, 4,096 boats, one keep", OTHER, 4096, 1, 1);
    case SLOWEST + 1:
        return slowest("one place, 4,096 lines, 127 boats, two keeps", OTHER, 127, 1, 2);
    case CLASSES:
        return typical_day("typical day, a lent sail", SISTER);
    case CLASSES + 1:
        return typical_day("typical day, another class", FOREIGN);
    case FULL_CLASSES:
        return full_day_others("full day, lent sails twice", SISTER);
    case FULL_CLASSES + 1:
        return with_third_unread(full_day_others("full day, lent sails twice", SISTER));
    case FULL_CLASSES + 2:
        return full_day_others("full day, other classes twice", FOREIGN);
    case FULL_CLASSES + 3:
        return with_third_unread(full_day_others("full day, other classes twice", FOREIGN));
    case FULL_CLASSES_END:
        return largest_one_keep("largest size, 1,024 places, lent sails", 0, SISTER, 3);
    case FULL_CLASSES_END + 1:
        return largest_one_keep("largest size, 1,024 places, other classes", 0, FOREIGN, 3);
    case SLOWEST_CLASSES:
        return slowest("28: one place, 4,096 boats of one class, one keep", SISTER, 4096, 1, 1);
    case SLOWEST_CLASSES + 1:
        return slowest("28: one place, 127 boats of one class, two keeps", SISTER, 127, 1, 2);
    case SLOWEST_CLASSES + 2:
        return slowest("28: one place, 4,096 boats of 64 classes, one keep", SISTER, 4096, 64, 1);
    case SLOWEST_CLASSES + 3:
        return slowest("28: one place, 127 boats of 64 classes, two keeps", SISTER, 127, 64, 2);
    case SLOWEST_CLASSES + 4:
        return slowest("29: one place, 4,096 boats of 64 classes, one keep", FOREIGN, 4096, 64, 1);
    case SLOWEST_CLASSES + 5:
        return slowest("29: one place, 127 boats of 64 classes, two keeps", FOREIGN, 127, 64, 2);
    case ROUNDS:
        return three_sailed("typical day, three roundings", typical_record, rounding, 0);
    case ROUNDS + 1:
        return three_sailed("typical day, three roundings, counted", typical_record, rounding, 1);
    case ROUNDS + 2:
        return three_sailed("full day, three laps", full_record, lap, 0);
    case ROUNDS + 3:
        return three_sailed("full day, three laps, counted", full_record, lap, 1);
    case ROUNDS + 4:
        return three_large("1,024 places, three rounds of others", 0);
    case ROUNDS + 5:
        return three_large("1,024 places, three rounds of others, counted", 1);
    case ROUNDS_END:
        return counted_boats("words, 4,096 lines of one boat, one keep", 1);
    case ROUNDS_END + 1:
        return counted_boats("words, 4,096 lines of 4,096 boats, one keep", 4096);
    case LISTS:
        return full_day_any("full day, nothing kept, ten to twenty roundings");
    case LISTS + 1:
        return growth("lists", 1024, 4096, 32, 0);
    case LISTS + 2:
        return rounds_of_two("1,024 places, no keep, ten to twenty rounds");
    case LISTS + 3:
        return many_beginnings("1,024 places, no keep, 31 beginnings", 0);
    case LISTS + 4:
        return many_beginnings("largest size, 1,024 places, one keep, 31 beginnings", 1);
    case LISTS + 5:
        return goal_apart("1,024 places, no line to the goal, 31 beginnings");
    case LISTS_END:
        return full_day_check();
    case ALL_STARTS:
        return full_day_starts();
    }
    unsigned step = (i - CASES) % 4;
    switch ((i - CASES) / 4) {
    case 0:
        return growth("lines", 32, 512 << step, 32, 1);
    case 1:
        return growth("boats", 32, 1024, 32 << step, 1);
    case 2:
        return growth("places", 16 << step, 1024, 32, 1);
    default:
        return growth("keeps", 8, 256, 15, step);
    }
}

/* Of rows by twos that were both measured, the second one's time by the first one's. Where there are any, the title stands before them,
   unless it does already. */
static void compare_pairs(double least[][PROGRAMS], int first, int end, const char *title, int *titled)
{
    for (int i = first; i < end; i += 2) {
        if (least[i][LIBRARY] == 0 || least[i + 1][LIBRARY] == 0)
            continue;
        if (!*titled)
            printf("\n| %s | library | C | C grouped | second | before |\n|---|---|---|---|---|---|\n", title);
        *titled = 1;
        struct request *r = row(i);
        printf("| %-52s", r->name);
        for (int p = 0; p <= BEFORE; p++)
            show_ratio(by(least[i + 1][p], least[i][p]));
        printf(" |\n");
        free(r);
    }
}

/* What it costs that a third of the lines is unread, and what is gained where rounds are counted. */
static void compare_twos(double least[][PROGRAMS])
{
    int unread = 0, counted = 0;
    compare_pairs(least, FULL, FULL_END, "a third unread / read", &unread);
    compare_pairs(least, FULL_CLASSES, FULL_CLASSES_END, "a third unread / read", &unread);
    compare_pairs(least, ROUNDS, ROUNDS_END, "counted / written out", &counted);
}

/* Can the program be called alone? The earlier build only where it is linked. */
static int callable(int program) { return program >= 0 && program < PROGRAMS && (program != BEFORE || before); }

static int profiled(char **argument)
{
    struct request *r = row(atoi(argument[0]));
    int program = atoi(argument[1]), times = atoi(argument[2]);
    uint64_t reply = 0;
    uint32_t reached = 0;
    if (OF_WINDOWS >> program & 1) {
        if (r->needed)
            fail(r, "no windows");
        r->listed = atoi(argument[0]) == ALL_STARTS;
        give_windows(r);
    } else if (program >= STEPS && (r->check || r->needed))
        fail(r, "no search");
    if (OF_PLACES >> program & 1)
        choose_places(r, &reached);
    if ((r->none == NO_PLACE && (program == FIND_NONE || program == ONE_NONE)) || (r->found == NO_PLACE && program == ONE_FOUND))
        fail(r, "no such place");
    lend(r);
    while (times-- > 0)
        timed(r, program, &reply, &reached);
    printf("%s: reply %llu\n", r->name, (unsigned long long)reply);
    free(r->chain);
    free(r);
    return 0;
}

/* Has the pattern a command that the earlier build does not know? */
static int not_known_before(const struct request *r)
{
    return before && !differ && old_chains_words(r->rec, r->rec_len, r->pat, r->pat_len) >> 32 == 8;
}

/* The rows that find a chain, or those that are named, in steps. */
static void show_steps(int count, char **number)
{
    printf("| case | reply | taken up | find, us | begin + finish / find | the same, medians | C / find | with one move / begin + finish | "
           "moves of 1,000 / one move | a move of 1, us |\n|---|---|---|---|---|---|---|---|---|---|\n");
    for (int i = 0; i < (count > 0 ? count : ROWS); i++) {
        int named = count > 0 ? atoi(number[i]) : i;
        struct request *r = row(named);
        if (!r->check && !r->needed && (count > 0 || !is_apart(named)))
            measure_steps(r);
        free(r->chain);
        free(r);
    }
}

/* The rows that find a chain and those about lists, or those that are named, by lists of places; then the times. */
static void show_starts(int count, char **number)
{
    static double least[ROWS][PROGRAMS];
    printf("| case | places | with a chain | states reached | find none, us | list of one / find none | the same, medians | "
           "list of all / list of one | the same, medians | list of all / find for each | list of all / C | C grouped / C |\n"
           "|---|---|---|---|---|---|---|---|---|---|---|---|\n");
    for (int i = 0; i < (count > 0 ? count : LISTS_END); i++) {
        int named = count > 0 ? atoi(number[i]) : i;
        struct request *r = row(named);
        if (!r->check && !r->needed && (count > 0 || (!is_slowest(named) && named != NEAR_BY)))
            measure_starts(r, is_slowest(named), least[named]);
        free(r->chain);
        free(r);
    }
    printf("\n| times, us | find none | list of one, none | list of one, found | list of all | list of all four times | find for each | C | "
           "C grouped |\n|---|---|---|---|---|---|---|---|---|\n");
    for (int i = 0; i < ROWS; i++) {
        if (least[i][ALL] == 0)
            continue;
        struct request *r = row(i);
        printf("| %-52s", r->name);
        for (int p = FIND_NONE; p <= GROUPED_ALL; p++)
            show_time(least[i][p]);
        printf(" |\n");
        free(r);
    }
}

/* The days, or the rows that are named, with windows; then the times. */
static void show_windows(int count, char **number)
{
    static double least[ROWS][PROGRAMS];
    printf("| case | reply | half outside | untimed, us | timed / untimed | the same, medians | half outside / untimed | the same, medians | "
           "half outside / kind 15 | the same, medians |\n|---|---|---|---|---|---|---|---|---|---|\n");
    for (int i = 0; i < (count > 0 ? count : ROWS); i++) {
        int named = count > 0 ? atoi(number[i]) : i;
        struct request *r = row(named);
        r->listed = named == ALL_STARTS;
        if (!r->needed && (count > 0 || is_day(named)))
            measure_windows(r, least[named]);
        free(r->chain);
        free(r);
    }
    printf("\n| times, us | untimed | timed | half outside | kind 15 | C, untimed | C, timed | C, half outside |\n"
           "|---|---|---|---|---|---|---|---|\n");
    for (int i = 0; i < ROWS; i++) {
        if (least[i][UNTIMED] == 0)
            continue;
        struct request *r = row(i);
        printf("| %-52s", r->name);
        for (int p = UNTIMED; p < PROGRAMS; p++)
            show_time(least[i][p]);
        printf(" |\n");
        free(r->chain);
        free(r);
    }
}

int main(int count, char **argument)
{
    read_clock_cost();
    before = old_chains_find != NULL;
    int slowest_too = 0;
    void (*show)(int, char **) = NULL;
    if (before && count > 1 && strcmp(argument[1], "--differ") == 0) {
        differ = 1;
        count--;
        argument++;
    }
    if (count == 5 && strcmp(argument[1], "--call") == 0 && callable(atoi(argument[3])))
        return profiled(argument + 2);
    if (!before && count > 1) {
        const char *mode = argument[1];
        show = strcmp(mode, "--steps") == 0     ? show_steps
               : strcmp(mode, "--starts") == 0  ? show_starts
               : strcmp(mode, "--windows") == 0 ? show_windows
                                                : NULL;
    }
    if (show != NULL) {
        count--;
        argument++;
    }
    if (show == NULL && count == 2 && strcmp(argument[1], "--slowest") == 0) {
        if (!before) {
            printf("| case | reply | states reached | C, s | C grouped, s | library, s |\n|---|---|---|---|---|---|\n");
            for (int i = 0; i < ROWS; i++)
                if (is_slowest(i))
                    measure_once(row(i));
            return 0;
        }
        slowest_too = 1;
        count = 1;
    }
    for (int i = 1; i < count; i++)
        if (strspn(argument[i], "0123456789") != strlen(argument[i]) || atoi(argument[i]) >= ROWS) {
            fprintf(stderr, "bench %s[ROW... | --slowest | %s--call ROW PROGRAM TIMES], rows 0 to %d\n", before ? "[--differ] " : "",
                    before ? "" : "--steps [ROW...] | --starts [ROW...] | --windows [ROW...] | ", ROWS - 1);
            return 2;
        }
    if (show != NULL) {
        show(count - 1, argument + 1);
        return 0;
    }
    if (before)
        printf("| case | reply | before, us | after / before | the same, medians |\n|---|---|---|---|---|\n");
    else
        printf("| case | reply | states reached | C, us | library / C | the same, medians | C grouped / C | second / C |\n"
               "|---|---|---|---|---|---|---|---|\n");
    static double least[ROWS][PROGRAMS];
    for (int i = 0; i < (count > 1 ? count - 1 : ROWS); i++) {
        int number = count > 1 ? atoi(argument[i + 1]) : i;
        if (count == 1 && is_apart(number) && !(is_slowest(number) && slowest_too))
            continue;
        struct request *r = row(number);
        if (not_known_before(r))
            printf("| %-52s | not known before | - | - | - |\n", r->name);
        else
            measure(r, least[number]);
        free(r->chain);
        free(r);
    }
    compare_twos(least);
    return 0;
}
