/*
 * Every function of chains.h, called from C: document 01's worked rows, unread numbers, classes, counted rounds, boats counted, many
 * starts, searches in steps, lines with a time, windows of the day, every refusal number, and each lent buffer afterwards; the helpers that
 * take a reply apart; and chains_message, held to the list of sentences. Prints what fails; the status is 1 if something did.
 *
 *     gcc -std=c11 -Wall -Wextra -Werror -pedantic -Iinclude tests/c/chains_test.c target/libchains.a -o target/chains_test
 *     target/chains_test include/refusals.txt
 */
#include "chains.h"

#include <stdio.h>
#include <stdlib.h>
#include <string.h>

/* ---- what fails is counted and printed */

static int tests = 0;
static int failures = 0;

static void expect(const char *what, int holds)
{
    tests++;
    if (!holds) {
        failures++;
        printf("fails: %s\n", what);
    }
}

static void expect_reply(const char *what, uint64_t reply, uint32_t number, uint32_t value)
{
    tests++;
    if (chains_number(reply) != number || chains_value(reply) != value) {
        failures++;
        printf("fails: %s: number %u with %u, expected %u with %u\n", what, (unsigned)chains_number(reply),
               (unsigned)chains_value(reply), (unsigned)number, (unsigned)value);
    }
}

/* ---- lent buffers, with words before and after them that no call may touch */

enum { WORDS = 20000, ENTRIES = 12, EDGE = 4 };

static const uint32_t DIRT = 0xA5A5A5A5u;
static const uint16_t OUT_DIRT = 0xA5A5u;

static uint32_t area[EDGE + WORDS + EDGE];
static uint16_t output[EDGE + ENTRIES + EDGE];

static void make_dirty(void)
{
    for (size_t i = 0; i < EDGE + WORDS + EDGE; i++) {
        area[i] = DIRT;
    }
    for (size_t i = 0; i < EDGE + ENTRIES + EDGE; i++) {
        output[i] = OUT_DIRT;
    }
}

/* Is the lent area all zeros, or all as it was? And is what stands around it as it was? */
static void expect_area(const char *what, size_t words, int zeros)
{
    int holds = 1;
    for (size_t i = 0; i < EDGE + WORDS + EDGE; i++) {
        int lent = i >= EDGE && i < EDGE + words;
        holds = holds && area[i] == (lent && zeros ? 0 : DIRT);
    }
    tests++;
    if (!holds) {
        failures++;
        printf("fails: %s: the work area afterwards\n", what);
    }
}

/* Does the output begin with the chain, and is all else in it as it was? */
static void expect_output(const char *what, const uint16_t *chain, size_t length)
{
    int holds = 1;
    for (size_t i = 0; i < EDGE + ENTRIES + EDGE; i++) {
        int written = i >= EDGE && i < EDGE + length;
        holds = holds && output[i] == (written ? chain[i - EDGE] : OUT_DIRT);
    }
    tests++;
    if (!holds) {
        failures++;
        printf("fails: %s: the output afterwards\n", what);
    }
}

/* ---- 01's records and patterns */

struct line {
    uint16_t from;
    uint8_t kind;
    uint8_t class_;
    uint32_t sail;
    uint16_t to;
};

struct record {
    uint8_t at[CHAINS_LONGEST_RECORD + 1];
    size_t len;
};

static const struct line LINES_OF_R[7] = {
    {0, 1, 1, 150, 1}, {0, 1, 2, 150, 1}, {1, 2, 2, 150, 2}, {1, 2, 1, 150, 2},
    {2, 3, 1, 150, 2}, {2, 4, 2, 150, 3}, {2, 4, 1, 151, 3},
};

static const uint8_t P[15] = {0x27, 1, 0, 0x25, 0x22, 2, 0, 0x25, 0x26, 0x22, 3, 0, 0x22, 4, 0};
static const uint8_t S[13] = {0x27, 1, 0, 0x25, 0x27, 1, 0, 0x23, 1, 0, 0x22, 1, 0};
static const uint8_t NOTHING[1] = {0x20};

static struct record r, r_with_7, r_without_5, t, e;

static void begin(struct record *rec, uint16_t places)
{
    uint64_t reply = chains_begin(rec->at, sizeof rec->at, places);
    expect_reply("begin", reply, 0, 4);
    rec->len = chains_value(reply);
}

static uint64_t add_to(struct record *rec, struct line l)
{
    return chains_add(rec->at, sizeof rec->at, rec->len, l.from, l.kind, l.class_, l.sail, l.to);
}

static void add(struct record *rec, struct line l)
{
    uint64_t reply = add_to(rec, l);
    expect_reply("add", reply, 0, (uint32_t)rec->len + 10);
    rec->len = chains_value(reply);
}

static void write_records(void)
{
    begin(&r, 4);
    begin(&r_without_5, 4);
    for (size_t i = 0; i < 7; i++) {
        add(&r, LINES_OF_R[i]);
        if (i != 5) {
            add(&r_without_5, LINES_OF_R[i]);
        }
    }
    r_with_7 = r;
    add(&r_with_7, (struct line){2, 4, 1, 150, 3});
    begin(&t, 1);
    add(&t, (struct line){0, 1, 1, 1, 0});
    add(&t, (struct line){0, 1, 1, 2, 0});
    begin(&e, 1);
}

/* ---- begin, add, read */

static void test_begin(void)
{
    uint8_t buf[6] = {9, 9, 9, 9, 9, 9};
    const uint8_t same[6] = {9, 9, 9, 9, 9, 9};
    expect_reply("begin, no places", chains_begin(buf, 6, 0), CHAINS_PLACES_OUT_OF_RANGE, 0);
    expect_reply("begin, 1,025 places", chains_begin(buf, 6, 1025), CHAINS_PLACES_OUT_OF_RANGE, 0);
    expect_reply("begin, three bytes", chains_begin(buf, 3, 4), CHAINS_BUFFER_TOO_SMALL, 0);
    expect_reply("begin, no bytes", chains_begin(buf, 0, 4), CHAINS_BUFFER_TOO_SMALL, 0);
    expect_reply("begin, no places and no bytes", chains_begin(buf, 0, 0), CHAINS_PLACES_OUT_OF_RANGE, 0);
    expect("begin: a refusal alters no byte", memcmp(buf, same, 6) == 0);
    const uint8_t begun[6] = {1, 4, 0, 0, 9, 9};
    expect_reply("begin, 1,024 places", chains_begin(buf, 6, 1024), 0, 4);
    expect("begin: four bytes are written", memcmp(buf, begun, 6) == 0);
}

static void test_add(void)
{
    uint8_t buf[16] = {1, 0, 2, 0, 9, 9, 9, 9, 9, 9, 9, 9, 9, 9, 9, 9};
    uint8_t same[16];
    memcpy(same, buf, 16);
    expect_reply("add, length 17 of 16", chains_add(buf, 16, 17, 0, 1, 1, 1, 1), CHAINS_LENGTH_BEYOND_BUFFER, 0);
    expect_reply("add, no record", chains_add(buf, 16, 0, 0, 1, 1, 1, 1), CHAINS_PLACES_OUT_OF_RANGE, 0);
    expect_reply("add, no end byte", chains_add(buf, 16, 3, 0, 1, 1, 1, 1), CHAINS_ENTRY_NOT_KNOWN, 0);
    expect_reply("add, bytes after the end", chains_add(buf, 16, 5, 0, 1, 1, 1, 1), CHAINS_BYTES_AFTER_END, 0);
    expect_reply("add, from place 2 of 2", chains_add(buf, 16, 4, 2, 1, 1, 1, 1), CHAINS_LINE_PLACE_NOT_THERE, 0);
    expect_reply("add, to place 2 of 2", chains_add(buf, 16, 4, 0, 1, 1, 1, 2), CHAINS_LINE_PLACE_NOT_THERE, 0);
    expect_reply("add, kind 16", chains_add(buf, 16, 4, 0, 16, 1, 1, 1), CHAINS_LINE_KIND_OUT_OF_RANGE, 0);
    expect_reply("add, sail number 2^24", chains_add(buf, 16, 4, 0, 1, 1, 16777216, 1), CHAINS_SAIL_NUMBER_TOO_LARGE, 0);
    expect_reply("add, 13 bytes", chains_add(buf, 13, 4, 0, 1, 1, 1, 1), CHAINS_BUFFER_TOO_SMALL, 0);
    expect("add: a refusal alters no byte", memcmp(buf, same, 16) == 0);
    const uint8_t added[16] = {1, 0, 2, 2, 0, 1, 15, 255, 1, 2, 3, 0, 0, 0, 9, 9};
    expect_reply("add", chains_add(buf, 16, 4, 1, 15, 255, 0x010203, 0), 0, 14);
    expect("add: eleven bytes are written", memcmp(buf, added, 16) == 0);

    static struct record full;
    full.at[0] = 1;
    full.at[1] = 0;
    full.at[2] = 1;
    for (size_t i = 0; i < 4096; i++) {
        const uint8_t bytes[10] = {2, 0, 0, 1, 1, 0, 0, 1, 0, 0};
        memcpy(full.at + 3 + 10 * i, bytes, 10);
    }
    full.len = 3 + 10 * 4096 + 1;
    full.at[full.len - 1] = 0;
    expect_reply("add to 4,096 lines", add_to(&full, (struct line){0, 1, 1, 1, 0}), CHAINS_RECORD_FULL, 0);
    full.len++;
    expect_reply("add to 4,096 lines and a byte", add_to(&full, (struct line){0, 1, 1, 1, 0}), CHAINS_BYTES_AFTER_END, 0);
    full.len = CHAINS_LONGEST_RECORD + 1;
    expect_reply("add to 57,349 bytes", add_to(&full, (struct line){0, 1, 1, 1, 0}), CHAINS_RECORD_TOO_LONG, 0);
}

static void test_read(void)
{
    uint32_t fields[7] = {9, 9, 9, 9, 9, 9, 9};
    const uint32_t same[7] = {9, 9, 9, 9, 9, 9, 9};
    expect_reply("read, line 7 of 7", chains_read(r.at, r.len, 7, fields, 7), CHAINS_LINE_NOT_THERE, 0);
    expect_reply("read, line 65,535", chains_read(r.at, r.len, 65535, fields, 7), CHAINS_LINE_NOT_THERE, 0);
    expect_reply("read, no record", chains_read(r.at, 0, 0, fields, 7), CHAINS_PLACES_OUT_OF_RANGE, 0);
    expect_reply("read, a line cut short", chains_read(r.at, 10, 0, fields, 7), CHAINS_LINE_CUT_SHORT, 0);
    expect_reply("read, four fields", chains_read(r.at, r.len, 0, fields, 4), 0, 0);
    expect_reply("read, no fields", chains_read(r.at, r.len, 0, fields, 0), 0, 0);
    expect_reply("read, no fields and no such line", chains_read(r.at, r.len, 7, fields, 0), CHAINS_LINE_NOT_THERE, 0);
    expect("read: nothing is written", memcmp(fields, same, sizeof fields) == 0);
    for (uint16_t i = 0; i < 7; i++) {
        const struct line l = LINES_OF_R[i];
        const uint32_t shown[7] = {l.from, l.kind, l.class_, l.sail, l.to, 9, 9};
        expect_reply("read", chains_read(r.at, r.len, i, fields, 7), 0, CHAINS_FIELDS);
        expect("read: the five fields, and no other word", memcmp(fields, shown, sizeof fields) == 0);
    }
}

/* ---- words */

static void expect_words(const char *what, const uint8_t *rec, size_t rec_len, const uint8_t *pat, size_t pat_len, uint32_t number,
                         uint32_t value)
{
    expect_reply(what, chains_words(rec, rec_len, pat, pat_len), number, value);
}

static void expect_pattern(const char *what, const uint8_t *pat, size_t pat_len, uint32_t number)
{
    expect_words(what, e.at, e.len, pat, pat_len, number, 0);
}

static void test_words(void)
{
    expect_words("words of R, P", r.at, r.len, P, 15, 0, 8704);
    expect_words("words of E, 20", e.at, e.len, NOTHING, 1, 0, 8200);

    const uint8_t none[4] = {1, 0, 0, 0}, over[4] = {1, 4, 1, 0}, most[4] = {1, 4, 0, 0};
    expect_words("01 00 00 00", none, 4, NOTHING, 1, CHAINS_PLACES_OUT_OF_RANGE, 0);
    expect_words("01 04 01 00", over, 4, NOTHING, 1, CHAINS_PLACES_OUT_OF_RANGE, 0);
    expect_words("01 04 00 00", most, 4, NOTHING, 1, 0, 4 * 2048 + 8192);
    expect_words("01 00 01", e.at, 3, NOTHING, 1, CHAINS_ENTRY_NOT_KNOWN, 0);
    const uint8_t kind_0[14] = {1, 0, 1, 2, 0, 0, 0, 1, 0, 0, 1, 0, 0, 0};
    const uint8_t place_1[14] = {1, 0, 1, 2, 0, 0, 1, 1, 0, 0, 1, 0, 1, 0};
    expect_words("a line of kind 0", kind_0, 14, NOTHING, 1, CHAINS_LINE_KIND_OUT_OF_RANGE, 0);
    expect_words("a line to place 1 of 1", place_1, 14, NOTHING, 1, CHAINS_LINE_PLACE_NOT_THERE, 0);
    static uint8_t long_record[CHAINS_LONGEST_RECORD + 1];
    expect_words("57,349 bytes", long_record, sizeof long_record, NOTHING, 1, CHAINS_RECORD_TOO_LONG, 0);

    uint8_t repeats[64];
    memset(repeats, 0x26, 64);
    repeats[62] = 0x20;
    expect_words("62 times 26, then 20", e.at, e.len, repeats, 63, 0, 4 * 64 + 8192);
    repeats[62] = 0x26;
    repeats[63] = 0x20;
    expect_pattern("63 times 26, then 20", repeats, 64, CHAINS_TOO_MANY_COMMANDS);
    const uint8_t line_0[2] = {0x21, 0}, unkept[3] = {0x22, 1, 0}, two[2] = {0x20, 0x20};
    const uint8_t four_keeps[13] = {0x27, 1, 0, 0x27, 1, 1, 0x27, 1, 2, 0x27, 1, 3, 0x20};
    expect_pattern("an empty pattern", NOTHING, 0, CHAINS_COMMAND_NOT_KNOWN);
    expect_pattern("21", line_0, 1, CHAINS_OPERANDS_MISSING);
    expect_pattern("21 00", line_0, 2, CHAINS_OPERAND_OUT_OF_RANGE);
    expect_pattern("22 01 00", unkept, 3, CHAINS_SLOT_NOT_KEPT);
    expect_pattern("four keeps nested", four_keeps, 13, CHAINS_KEEPS_TOO_DEEP);
    expect_pattern("20 20", two, 2, CHAINS_BYTES_AFTER_PATTERN);
}

/* ---- patterns */

/* Refused: no word is written, however many are lent. */
static void pattern_refused(const char *what, const uint8_t *pat, size_t pat_len, uint32_t number)
{
    uint32_t counts[4] = {9, 9, 9, 9};
    const uint32_t same[4] = {9, 9, 9, 9};
    for (size_t lent = 0; lent <= 4; lent++) {
        expect_reply(what, chains_pattern(pat, pat_len, counts, lent), number, 0);
    }
    expect(what, memcmp(counts, same, sizeof counts) == 0);
}

/* Read: the first three words have the counts, and no other word is written; two get the first two, and fewer get none. */
static void pattern_unfolded(const char *what, const uint8_t *pat, size_t pat_len, uint32_t commands, uint32_t keeps, uint32_t unfolded)
{
    uint32_t counts[5] = {9, 9, 9, 9, 9};
    const uint32_t same[5] = {9, 9, 9, 9, 9}, two[5] = {commands, keeps, 9, 9, 9}, three[5] = {commands, keeps, unfolded, 9, 9};
    expect_reply(what, chains_pattern(pat, pat_len, counts, 0), 0, 0);
    expect_reply(what, chains_pattern(pat, pat_len, counts, 1), 0, 0);
    expect(what, memcmp(counts, same, sizeof counts) == 0);
    expect_reply(what, chains_pattern(pat, pat_len, counts, 2), 0, 2);
    expect(what, memcmp(counts, two, sizeof counts) == 0);
    for (size_t lent = CHAINS_COUNTS; lent <= 5; lent++) {
        memcpy(counts, same, sizeof counts);
        expect_reply(what, chains_pattern(pat, pat_len, counts, lent), 0, CHAINS_COUNTS);
        expect(what, memcmp(counts, three, sizeof counts) == 0);
    }
    expect(what, counts[CHAINS_COUNT_COMMANDS] == commands && counts[CHAINS_COUNT_KEEPS] == keeps &&
                     counts[CHAINS_COUNT_UNFOLDED] == unfolded);
}

/* The same of a pattern whose commands come once each. */
static void pattern_counts(const char *what, const uint8_t *pat, size_t pat_len, uint32_t commands, uint32_t keeps)
{
    pattern_unfolded(what, pat, pat_len, commands, keeps, commands);
}

static void test_pattern(void)
{
    pattern_counts("pattern P", P, 15, 7, 1);
    pattern_counts("pattern S", S, 13, 5, 2);
    pattern_counts("pattern 20", NOTHING, 1, 1, 0);
    uint8_t repeats[64];
    memset(repeats, 0x26, 64);
    repeats[62] = 0x20;
    pattern_counts("pattern, 62 times 26, then 20", repeats, 63, 63, 0);
    repeats[62] = 0x26;
    repeats[63] = 0x20;
    pattern_refused("pattern, 63 times 26, then 20", repeats, 64, CHAINS_TOO_MANY_COMMANDS);
    const uint8_t keeps[13] = {0x27, 1, 0, 0x27, 1, 1, 0x27, 1, 2, 0x27, 1, 3, 0x20};
    pattern_counts("pattern, three keeps nested", keeps + 3, 10, 4, 3);
    pattern_refused("pattern, four keeps nested", keeps, 13, CHAINS_KEEPS_TOO_DEEP);
    const uint8_t line_16[2] = {0x21, 16}, unkept[3] = {0x22, 1, 0}, two[2] = {0x20, 0x20};
    pattern_refused("pattern, no bytes", NOTHING, 0, CHAINS_COMMAND_NOT_KNOWN);
    pattern_refused("pattern 21", line_16, 1, CHAINS_OPERANDS_MISSING);
    pattern_refused("pattern 21 10", line_16, 2, CHAINS_OPERAND_OUT_OF_RANGE);
    pattern_refused("pattern 22 01 00", unkept, 3, CHAINS_SLOT_NOT_KEPT);
    pattern_refused("pattern 20 20", two, 2, CHAINS_BYTES_AFTER_PATTERN);
}

/* ---- boats counted */

/* Refused: no word is written, however many are lent. */
static void boats_refused(const char *what, const uint8_t *rec, size_t rec_len, uint32_t number)
{
    uint32_t counts[4] = {9, 9, 9, 9};
    const uint32_t same[4] = {9, 9, 9, 9};
    for (size_t lent = 0; lent <= 4; lent++) {
        expect_reply(what, chains_boats(rec, rec_len, counts, lent), number, 0);
    }
    expect(what, memcmp(counts, same, sizeof counts) == 0);
}

/* Counted: the first two words have boats and reads, and no other word is written; fewer than two get none. */
static void boats_counted(const char *what, const uint8_t *rec, size_t rec_len, uint32_t boats, uint32_t reads)
{
    uint32_t counts[4] = {9, 9, 9, 9};
    const uint32_t same[4] = {9, 9, 9, 9}, two[4] = {boats, reads, 9, 9};
    expect_reply(what, chains_boats(rec, rec_len, counts, 0), 0, 0);
    expect_reply(what, chains_boats(rec, rec_len, counts, 1), 0, 0);
    expect(what, memcmp(counts, same, sizeof counts) == 0);
    for (size_t lent = CHAINS_BOATS_COUNTS; lent <= 4; lent++) {
        memcpy(counts, same, sizeof counts);
        expect_reply(what, chains_boats(rec, rec_len, counts, lent), 0, CHAINS_BOATS_COUNTS);
        expect(what, memcmp(counts, two, sizeof counts) == 0);
    }
    expect(what, counts[CHAINS_BOATS_DIFFERENT] == boats && counts[CHAINS_BOATS_READS] == reads);
}

/* A record of one place with a line for each letter: A is boat 1-7, B 1-8, C 2-7, and U has an unread number. */
static void write_letters(struct record *rec, const char *letters)
{
    begin(rec, 1);
    for (; *letters != 0; letters++) {
        const uint8_t class_ = *letters == 'U' ? 0 : *letters == 'C' ? 2 : 1;
        const uint32_t sail = *letters == 'U' ? 0 : *letters == 'B' ? 8 : 7;
        add(rec, (struct line){0, 1, class_, sail, 0});
    }
}

/* A record with as many lines as there can be, each of the boat 1-7, or each of a boat of its own. */
static void write_full(struct record *rec, int different)
{
    begin(rec, 1);
    for (uint32_t i = 0; i < 4096; i++) {
        add(rec, (struct line){0, 1, 1, different ? i : 7, 0});
    }
}

static void test_boats(void)
{
    static const struct {
        const char *letters;
        uint32_t boats, reads;
    } rows[] = {
        {"", 0, 0},      {"A", 1, 0},    {"AABA", 2, 4}, {"ABC", 3, 3},       {"ABBB", 2, 5}, {"ABAB", 2, 4},
        {"AAACC", 2, 9}, {"ACAC", 2, 4}, {"UAUU", 2, 3}, {"AAAAAAAAA", 1, 8}, {"UUU", 1, 2},
    };
    static struct record day, full;
    for (size_t i = 0; i < sizeof rows / sizeof rows[0]; i++) {
        write_letters(&day, rows[i].letters);
        boats_counted(rows[i].letters, day.at, day.len, rows[i].boats, rows[i].reads);
    }
    boats_counted("boats of R", r.at, r.len, 3, 13);
    boats_counted("boats of E", e.at, e.len, 0, 0);
    write_full(&full, 0);
    boats_counted("4,096 lines of one boat", full.at, full.len, 1, 4095);
    write_full(&full, 1);
    boats_counted("4,096 lines of as many boats", full.at, full.len, 4096, 8386560);
    boats_refused("boats of no bytes", r.at, 0, CHAINS_PLACES_OUT_OF_RANGE);
    boats_refused("boats of a record cut before its end", r.at, r.len - 1, CHAINS_ENTRY_NOT_KNOWN);
    boats_refused("boats of a record cut in a line", r.at, r.len - 2, CHAINS_LINE_CUT_SHORT);
    boats_refused("boats of 57,349 bytes", full.at, CHAINS_LONGEST_RECORD + 1, CHAINS_RECORD_TOO_LONG);
    write_letters(&day, "AB");
    day.at[day.len] = 0;
    boats_refused("boats of a record that goes on", day.at, day.len + 1, CHAINS_BYTES_AFTER_END);
    day.at[16] = 0;
    boats_refused("boats of a line of kind 0", day.at, day.len, CHAINS_LINE_KIND_OUT_OF_RANGE);
    day.at[15] = 1;
    boats_refused("boats of a line from another place", day.at, day.len, CHAINS_LINE_PLACE_NOT_THERE);
    /* An area with words around it: two of them are written. */
    make_dirty();
    expect_reply("boats into an area", chains_boats(r.at, r.len, area + EDGE, WORDS), 0, CHAINS_BOATS_COUNTS);
    expect("boats into an area", area[EDGE] == 3 && area[EDGE + 1] == 13);
    area[EDGE] = area[EDGE + 1] = DIRT;
    expect_area("boats into an area", 0, 0);
}

/* 1,024 places, 15 commands, one keep, and so many boats. */
static void test_sizes(void)
{
    static struct record day;
    uint8_t pattern[18] = {0x27, 1, 0};
    memset(pattern + 3, 0x26, 13);
    pattern[16] = 0x21;
    pattern[17] = 1;
    begin(&day, 1024);
    for (uint32_t boat = 0; boat < 63; boat++) {
        add(&day, (struct line){0, 1, (uint8_t)(boat % 2), boat / 2, 0});
    }
    expect_words("63 boats", day.at, day.len, pattern, 18, 0, 4202496);
    uint32_t *large = calloc(4202496, sizeof *large);
    if (large == NULL) {
        expect("memory for the largest area", 0);
        return;
    }
    uint16_t found[2] = {OUT_DIRT, OUT_DIRT};
    uint64_t reply = chains_find(day.at, day.len, pattern, 18, 0, 0, large, 4202496, found, 2);
    expect_reply("63 boats, found", reply, 0, 1);
    expect("63 boats: line 0, and no other entry", found[0] == 0 && found[1] == OUT_DIRT);
    add(&day, (struct line){0, 1, 9, 9, 0});
    expect_words("64 boats", day.at, day.len, pattern, 18, CHAINS_SEARCH_TOO_LARGE, 0);
    reply = chains_find(day.at, day.len, pattern, 18, 0, 0, large, 4202496, found, 2);
    expect_reply("64 boats", reply, CHAINS_SEARCH_TOO_LARGE, 0);
    reply = chains_check(day.at, day.len, pattern, 18, 0, 0, found, 1, large, 4202496);
    expect_reply("64 boats", reply, CHAINS_SEARCH_TOO_LARGE, 0);
    free(large);
}

/* ---- check and find */

struct ask {
    const struct record *rec;
    const uint8_t *pat;
    size_t pat_len;
    uint16_t from;
    uint16_t to;
};

/* Open and close of the kinds 1 to 15 in turn, and words after them that are lent by some and not read. */
struct options {
    uint32_t at[CHAINS_OPTIONS + 10];
    size_t len;
};

/* The options that every request is asked with: where there are none, it is a function without options that is called. */
static const struct options *given = NULL;

static uint64_t call_check(struct ask a, const uint16_t *chain, size_t length, uint32_t *work, size_t words)
{
    return given == NULL ? chains_check(a.rec->at, a.rec->len, a.pat, a.pat_len, a.from, a.to, chain, length, work, words)
                         : chains_check_with(a.rec->at, a.rec->len, a.pat, a.pat_len, a.from, a.to, chain, length, given->at, given->len,
                                             work, words);
}

static uint64_t call_find(struct ask a, uint32_t *work, size_t words, uint16_t *out, size_t entries)
{
    return given == NULL ? chains_find(a.rec->at, a.rec->len, a.pat, a.pat_len, a.from, a.to, work, words, out, entries)
                         : chains_find_with(a.rec->at, a.rec->len, a.pat, a.pat_len, a.from, a.to, given->at, given->len, work, words, out,
                                            entries);
}

static const struct ask R_P = {&r, P, 15, 0, 3};
static const struct ask T_S = {&t, S, 13, 0, 0};

static uint32_t needed(struct ask a)
{
    return chains_value(chains_words(a.rec->at, a.rec->len, a.pat, a.pat_len));
}

/* Is the work area cleared after a reply with this number? After 18, 19 and no refusal; all other questions come before. */
static int clears(uint32_t number)
{
    return number == 0 || number == CHAINS_LINE_NOT_THERE || number == CHAINS_OUTPUT_TOO_SMALL;
}

/* A check in so many words; its reply, and the area. */
static void check_in(const char *what, struct ask a, const uint16_t *chain, size_t length, size_t words, uint32_t number,
                     uint32_t value)
{
    make_dirty();
    expect_reply(what, call_check(a, chain, length, area + EDGE, words), number, value);
    expect_area(what, words, clears(number));
}

static void check(const char *what, struct ask a, const uint16_t *chain, size_t length, uint32_t yes)
{
    check_in(what, a, chain, length, needed(a), 0, yes);
    check_in(what, a, chain, length, needed(a) + 100, 0, yes);
}

static void test_check(void)
{
    const uint16_t c025[3] = {0, 2, 5}, c125[3] = {1, 2, 5}, c0100[4] = {0, 1, 0, 0}, c0101[4] = {0, 1, 0, 1};
    check("check R, P, 0 2 5", R_P, c025, 3, 0);
    check("check R, P, 1 2 5", R_P, c125, 3, 1);
    check("check T, S, 0 1 0 0", T_S, c0100, 4, 1);
    check("check T, S, 0 1 0 1", T_S, c0101, 4, 0);
    check("check E, 20, the empty chain", (struct ask){&e, NOTHING, 1, 0, 0}, c025, 0, 1);
    check("check R, 20, the empty chain, 0 to 1", (struct ask){&r, NOTHING, 1, 0, 1}, c025, 0, 0);

    const uint16_t bad_join[3] = {5, 0, 7};
    const struct ask no_place = {&r, P, 15, 0, 4}, no_pattern = {&r, P, 14, 0, 3};
    check_in("check, line 7 of 7 after a bad join", R_P, bad_join, 3, 8704, CHAINS_LINE_NOT_THERE, 0);
    check_in("check, place 4 of 4", no_place, c125, 3, 8704, CHAINS_ASKED_PLACE_NOT_THERE, 0);
    check_in("check, a word too few", R_P, c125, 3, 8703, CHAINS_WORK_AREA_TOO_SMALL, 0);
    check_in("check, no words", R_P, c125, 3, 0, CHAINS_WORK_AREA_TOO_SMALL, 0);
    check_in("check, a pattern cut short", no_pattern, c125, 3, 8704, CHAINS_OPERANDS_MISSING, 0);
}

/* A find in so many words and entries; its reply, the area, and the output, which is as it was unless a chain was found. */
static void find_in(const char *what, struct ask a, size_t words, size_t entries, uint32_t number, uint32_t value,
                    const uint16_t *chain)
{
    make_dirty();
    expect_reply(what, call_find(a, area + EDGE, words, output + EDGE, entries), number, value);
    expect_area(what, words, clears(number));
    expect_output(what, chain, number == 0 && value != CHAINS_NO_CHAIN ? value : 0);
}

/* The chain is found, in an exact output and in a longer one; one entry fewer is refused with its length. */
static void found(const char *what, struct ask a, const uint16_t *chain, uint32_t length)
{
    find_in(what, a, needed(a), length, 0, length, chain);
    find_in(what, a, needed(a) + 100, ENTRIES, 0, length, chain);
    if (length > 0) {
        find_in(what, a, needed(a), length - 1, CHAINS_OUTPUT_TOO_SMALL, length, chain);
        find_in(what, a, needed(a), 0, CHAINS_OUTPUT_TOO_SMALL, length, chain);
    }
}

static void no_chain(const char *what, struct ask a)
{
    find_in(what, a, needed(a), 0, 0, CHAINS_NO_CHAIN, output);
    find_in(what, a, needed(a), ENTRIES, 0, CHAINS_NO_CHAIN, output);
}

static void test_find(void)
{
    const uint16_t c125[3] = {1, 2, 5}, c037[3] = {0, 3, 7}, c0010[4] = {0, 0, 1, 0};
    const uint8_t line_3[2] = {0x21, 3}, repeat_nothing[2] = {0x26, 0x20};
    found("R, P, 0 to 3", R_P, c125, 3);
    found("R with line 7, P, 0 to 3", (struct ask){&r_with_7, P, 15, 0, 3}, c037, 3);
    no_chain("R without line 5, P, 0 to 3", (struct ask){&r_without_5, P, 15, 0, 3});
    found("T, S, 0 to 0", T_S, c0010, 4);
    found("E, 20, 0 to 0", (struct ask){&e, NOTHING, 1, 0, 0}, c125, 0);
    no_chain("E, 21 03, 0 to 0", (struct ask){&e, line_3, 2, 0, 0});
    no_chain("R, 26 20, 0 to 1", (struct ask){&r, repeat_nothing, 2, 0, 1});
    find_in("R, P, output of 2", R_P, 8704, 2, CHAINS_OUTPUT_TOO_SMALL, 3, c125);

    const struct ask no_place = {&r, P, 15, 4, 0}, no_pattern = {&r, P, 0, 0, 3};
    find_in("find, place 4 of 4", no_place, 8704, 3, CHAINS_ASKED_PLACE_NOT_THERE, 0, c125);
    find_in("find, place 4 of 4 and no words", no_place, 0, 3, CHAINS_ASKED_PLACE_NOT_THERE, 0, c125);
    find_in("find, a word too few", R_P, 8703, 3, CHAINS_WORK_AREA_TOO_SMALL, 0, c125);
    find_in("find, an empty pattern", no_pattern, 8704, 3, CHAINS_COMMAND_NOT_KNOWN, 0, c125);
}

/* ---- unread numbers */

/* One boat of class and number entered; then lines of an unread number, of another boat and of that boat, to the same place. */
static void write_unread(struct record *rec, struct line kept, struct line other)
{
    begin(rec, 3);
    add(rec, (struct line){0, 1, kept.class_, kept.sail, 1});
    add(rec, (struct line){1, 2, 0, 0, 2});
    add(rec, (struct line){1, 2, other.class_, other.sail, 2});
    add(rec, (struct line){1, 2, kept.class_, kept.sail, 2});
}

/* Same and other pass no line with an unread number, and no line where the slot holds one; keep and line take it, and all unread
   numbers count as one boat. Class 0 alone and number 0 alone are boats. */
static void test_unread(void)
{
    static const uint8_t any[5] = {0x27, 1, 0, 0x21, 2}, same[6] = {0x27, 1, 0, 0x22, 2, 0}, other[6] = {0x27, 1, 0, 0x23, 2, 0};
    static const uint8_t keep[4] = {0x27, 1, 0, 0x20};
    static const struct line boats[3][2] = {
        {{0, 0, 1, 1, 0}, {0, 0, 1, 2, 0}}, {{0, 0, 0, 5, 0}, {0, 0, 0, 6, 0}}, {{0, 0, 3, 0, 0}, {0, 0, 4, 0, 0}}};
    static struct record day;
    const uint16_t c01[2] = {0, 1}, c02[2] = {0, 2}, c03[2] = {0, 3};
    for (size_t i = 0; i < 3; i++) {
        write_unread(&day, boats[i][0], boats[i][1]);
        const struct ask any_line = {&day, any, 5, 0, 2}, own = {&day, same, 6, 0, 2}, others = {&day, other, 6, 0, 2};
        found("a boat kept, any line", any_line, c01, 2);
        found("a boat kept, same passes over the unread line", own, c03, 2);
        found("a boat kept, other passes over the unread line", others, c02, 2);
        check("a boat kept, any line, unread", any_line, c01, 2, 1);
        check("a boat kept, same, unread", own, c01, 2, 0);
        check("a boat kept, other, unread", others, c01, 2, 0);
        check("a boat kept, same, another", own, c02, 2, 0);
        check("a boat kept, other, its own", others, c03, 2, 0);
    }

    begin(&day, 2);
    add(&day, (struct line){0, 1, 0, 0, 1});
    add(&day, (struct line){1, 2, 0, 0, 1});
    add(&day, (struct line){1, 2, 1, 1, 1});
    const struct ask any_line = {&day, any, 5, 0, 1}, own = {&day, same, 6, 0, 1}, others = {&day, other, 6, 0, 1};
    found("an unread number kept, any line", any_line, c01, 2);
    no_chain("an unread number kept, same", own);
    no_chain("an unread number kept, other", others);
    check("an unread number kept, any line, unread", any_line, c01, 2, 1);
    check("an unread number kept, same, unread", own, c01, 2, 0);
    check("an unread number kept, other, unread", others, c01, 2, 0);
    check("an unread number kept, same, a boat", own, c02, 2, 0);
    check("an unread number kept, other, a boat", others, c02, 2, 0);
    found("an unread number kept, and nothing after it", (struct ask){&day, keep, 4, 0, 1}, c01, 1);
    found("a line with an unread number", (struct ask){&day, any + 3, 2, 1, 1}, c01 + 1, 1);

    begin(&day, 1);
    add(&day, (struct line){0, 1, 1, 1, 0});
    expect_words("one boat", day.at, day.len, keep, 4, 0, 4 * 3 * 2 + 8192);
    add(&day, (struct line){0, 1, 0, 0, 0});
    expect_words("one boat, an unread number", day.at, day.len, keep, 4, 0, 4 * 3 * 3 + 8192);
    add(&day, (struct line){0, 2, 0, 0, 0});
    expect_words("one boat, two unread numbers", day.at, day.len, keep, 4, 0, 4 * 3 * 3 + 8192);
}

/* ---- classes */

/* A boat entered, and after it lines of so many boats between two places. */
static void write_classes(struct record *rec, const struct line *boats, size_t count)
{
    begin(rec, 3);
    add(rec, (struct line){0, 1, boats[0].class_, boats[0].sail, 1});
    for (size_t i = 1; i < count; i++) {
        add(rec, (struct line){1, 2, boats[i].class_, boats[i].sail, 2});
    }
}

/* The first of the lines that the test passes, or 0 where it passes none; and the checker's word on each of them. */
static void classes(const char *what, const struct record *day, uint8_t test, size_t lines, uint16_t first, const uint8_t *passed)
{
    const uint8_t pattern[6] = {0x27, 1, 0, test, 2, 0};
    const struct ask asked = {day, pattern, 6, 0, 2};
    uint16_t chain[2] = {0, first};
    if (first == 0) {
        no_chain(what, asked);
    } else {
        found(what, asked, chain, 2);
    }
    for (chain[1] = 1; chain[1] < lines; chain[1]++) {
        check(what, asked, chain, 2, passed[chain[1] - 1]);
    }
}

/* Sister takes another boat of the kept one's class, foreign one of another class, neither an unread number on either side. */
static void test_classes(void)
{
    static const struct line lent[6] = {{0, 0, 2, 1, 0}, {0, 0, 1, 7, 0}, {0, 0, 1, 8, 0},
                                        {0, 0, 2, 1, 0}, {0, 0, 2, 9, 0}, {0, 0, 3, 1, 0}};
    static const struct line late[4] = {{0, 0, 1, 1, 0}, {0, 0, 1, 7, 0}, {0, 0, 1, 8, 0}, {0, 0, 2, 1, 0}};
    static const struct line slot[4] = {{0, 0, 0, 0, 0}, {0, 0, 0, 5, 0}, {0, 0, 1, 1, 0}, {0, 0, 0, 0, 0}};
    static const struct line unread[4] = {{0, 0, 0, 5, 0}, {0, 0, 0, 0, 0}, {0, 0, 0, 6, 0}, {0, 0, 1, 5, 0}};
    static const uint8_t none[3] = {0, 0, 0};
    static struct record day;
    write_classes(&day, lent, 6);
    classes("2-1 kept, same", &day, 0x22, 6, 3, (const uint8_t[]){0, 0, 1, 0, 0});
    classes("2-1 kept, other", &day, 0x23, 6, 1, (const uint8_t[]){1, 1, 0, 1, 1});
    classes("2-1 kept, sister", &day, 0x28, 6, 4, (const uint8_t[]){0, 0, 0, 1, 0});
    classes("2-1 kept, foreign", &day, 0x29, 6, 1, (const uint8_t[]){1, 1, 0, 0, 1});
    write_classes(&day, late, 4);
    classes("1-1 kept, sister", &day, 0x28, 4, 1, (const uint8_t[]){1, 1, 0});
    classes("1-1 kept, foreign", &day, 0x29, 4, 3, (const uint8_t[]){0, 0, 1});
    write_classes(&day, slot, 4);
    classes("an unread number kept, sister", &day, 0x28, 4, 0, none);
    classes("an unread number kept, foreign", &day, 0x29, 4, 0, none);
    write_classes(&day, unread, 4);
    classes("0-5 kept, sister", &day, 0x28, 4, 2, (const uint8_t[]){0, 1, 0});
    classes("0-5 kept, foreign", &day, 0x29, 4, 3, (const uint8_t[]){0, 0, 1});

    for (uint8_t test = 0x28; test <= 0x29; test++) {
        const uint8_t kept[6] = {0x27, 1, 0, test, 15, 0}, slot_4[3] = {test, 1, 4}, unkept[3] = {test, 1, 0};
        pattern_counts("a test of a kept slot", kept, 6, 2, 1);
        pattern_refused("a test without its slot", unkept, 2, CHAINS_OPERANDS_MISSING);
        pattern_refused("a test of slot 4", slot_4, 3, CHAINS_OPERAND_OUT_OF_RANGE);
        pattern_refused("a test of a slot that is not kept", unkept, 3, CHAINS_SLOT_NOT_KEPT);
    }
    for (uint8_t byte = 0x2B; byte <= 0x2F; byte++) {
        pattern_refused("no command", &byte, 1, CHAINS_COMMAND_NOT_KNOWN);
    }
}

/* ---- counted rounds */

/* The first shortest chain has `least` laps, and the checker says yes from there to `most`. */
static void laps(const char *what, const struct record *day, const uint8_t *pattern, size_t pattern_len, uint32_t least, uint32_t most)
{
    static const uint16_t chain[ENTRIES] = {0};
    const struct ask asked = {day, pattern, pattern_len, 0, 0};
    found(what, asked, chain, least);
    for (uint32_t length = 0; length < ENTRIES; length++) {
        check(what, asked, chain, length, length >= least && length <= most);
    }
}

/* From the lowest to the highest count of rounds; a round may be empty, and has its own boats. 24 and 25 leave the area. */
static void test_rounds(void)
{
    static const uint8_t two_to_five[5] = {0x2A, 2, 5, 0x21, 3}, none[5] = {0x2A, 0, 0, 0x21, 3}, empty[4] = {0x2A, 1, 3, 0x20};
    static const uint8_t beside[11] = {0x25, 0x2A, 2, 5, 0x21, 3, 0x2A, 3, 3, 0x21, 3}, maybe[7] = {0x2A, 1, 3, 0x24, 0x20, 0x21, 3};
    static struct record day;
    begin(&day, 1);
    add(&day, (struct line){0, 3, 1, 1, 0});
    laps("two to five laps", &day, two_to_five, 5, 2, 5);
    laps("no laps", &day, none, 5, 0, 0);
    laps("rounds of nothing", &day, empty, 4, 0, 0);
    laps("rounds that may be empty", &day, maybe, 7, 0, 3);
    laps("two to five laps, then three", &day, beside, 11, 5, 8);

    const uint8_t own[9] = {0x2A, 2, 2, 0x27, 1, 0, 0x22, 1, 0};
    const uint16_t c0011[4] = {0, 0, 1, 1}, c0001[4] = {0, 0, 0, 1};
    const struct ask T_own = {&t, own, 9, 0, 0};
    check("a boat of its own in each round", T_own, c0011, 4, 1);
    check("two boats in one round", T_own, c0001, 4, 0);

    pattern_unfolded("two to five laps", two_to_five, 5, 2, 0, 6);
    pattern_unfolded("no laps", none, 5, 2, 0, 1);
    pattern_unfolded("two rounds of a keep", own, 9, 3, 1, 5);
    expect_words("the size goes by the unfolded count", day.at, day.len, two_to_five, 5, 0, 4 * 7 + 8192);
    const uint8_t kept[7] = {0x2A, 0, 0, 0x27, 1, 0, 0x20};
    expect_words("keeps count where no round may come", day.at, day.len, kept, 7, 0, 4 * 2 * 2 + 8192);

    const uint8_t most[9] = {0x26, 0x26, 0x26, 0x2A, 0, 20, 0x24, 0x20, 0x20};
    pattern_unfolded("an unfolded count of 63", most + 1, 8, 6, 0, 63);
    pattern_refused("an unfolded count of 64", most, 9, CHAINS_UNFOLDED_TOO_LONG);

    /* No rounds of twenty rounds of twenty rounds and so on, forty times; without the first three bytes it is far too long. */
    uint8_t nests[3 + 3 * 40 + 2] = {0x2A, 0, 0};
    for (size_t i = 3; i < 3 + 3 * 40; i += 3) {
        nests[i] = 0x2A;
        nests[i + 1] = 20;
        nests[i + 2] = 20;
    }
    nests[123] = 0x20;
    nests[124] = 0x20;
    pattern_unfolded("no rounds of twenty of twenty ..", nests, 124, 42, 0, 1);
    pattern_refused("no rounds, and a byte after them", nests, 125, CHAINS_BYTES_AFTER_PATTERN);
    pattern_refused("twenty of twenty ..", nests + 3, 121, CHAINS_UNFOLDED_TOO_LONG);
    pattern_refused("twenty of twenty .., and a byte after them", nests + 3, 122, CHAINS_BYTES_AFTER_PATTERN);
    laps("no rounds of twenty of twenty ..", &day, nests, 124, 0, 0);

    const uint8_t turned[4] = {0x2A, 1, 0, 0xFF}, many[4] = {0x2A, 0, 21, 0x20};
    pattern_refused("2A", turned, 1, CHAINS_OPERANDS_MISSING);
    pattern_refused("2A 01", turned, 2, CHAINS_OPERANDS_MISSING);
    pattern_refused("2A 01 00", turned, 3, CHAINS_ROUNDS_OUT_OF_RANGE);
    pattern_refused("2A 01 00 FF", turned, 4, CHAINS_ROUNDS_OUT_OF_RANGE);
    pattern_refused("2A 00 00", none, 3, CHAINS_COMMAND_NOT_KNOWN);
    pattern_refused("2A 00 15", many, 3, CHAINS_ROUNDS_OUT_OF_RANGE);
    pattern_refused("2A 00 15 20", many, 4, CHAINS_ROUNDS_OUT_OF_RANGE);
    const uint16_t c0[1] = {0};
    const struct ask no_rounds = {&r, many, 4, 9, 9}, too_long = {&r, nests + 3, 121, 9, 9};
    check_in("check, 24", no_rounds, c0, 1, 8704, CHAINS_ROUNDS_OUT_OF_RANGE, 0);
    find_in("find, 24", no_rounds, 8704, 3, CHAINS_ROUNDS_OUT_OF_RANGE, 0, c0);
    check_in("check, 25", too_long, c0, 1, 8704, CHAINS_UNFOLDED_TOO_LONG, 0);
    find_in("find, 25", too_long, 8704, 3, CHAINS_UNFOLDED_TOO_LONG, 0, c0);
}

/* ---- many starts in one search */

enum { LISTED = 70001 };

/* Places that are listed. Of a request about them its first place is not asked. */
struct list {
    const uint16_t *places;
    size_t count;
};

static uint16_t lent_list[LISTED];
static uint32_t lengths[EDGE + LISTED + EDGE];

static const uint32_t NONE = CHAINS_NO_CHAIN;

static uint64_t starts(struct ask a, size_t count, size_t words, size_t entries)
{
    return given == NULL ? chains_starts(a.rec->at, a.rec->len, a.pat, a.pat_len, lent_list, count, a.to, area + EDGE, words,
                                         lengths + EDGE, entries)
                         : chains_starts_with(a.rec->at, a.rec->len, a.pat, a.pat_len, lent_list, count, a.to, given->at, given->len,
                                              area + EDGE, words, lengths + EDGE, entries);
}

/* Area and lengths are dirty, and the list is lent. */
static void lend(struct list l)
{
    make_dirty();
    memset(lengths, 0xA5, sizeof lengths);
    memcpy(lent_list, l.places, l.count * sizeof *lent_list);
}

/* Do so many lengths stand at the front of the lent words, and is all else as it was, the list too? */
static void expect_lengths(const char *what, struct list l, const uint32_t *expected, size_t count)
{
    static uint32_t image[EDGE + LISTED + EDGE];
    memset(image, 0xA5, sizeof image);
    if (count > 0) {
        memcpy(image + EDGE, expected, count * sizeof *image);
    }
    expect(what, memcmp(lengths, image, sizeof image) == 0);
    expect(what, memcmp(lent_list, l.places, l.count * sizeof *lent_list) == 0);
}

/* The starts of a list in so many words and entries; the reply, the area, and the lengths, which are as they were where refused. */
static void starts_in(const char *what, struct ask a, struct list l, size_t words, size_t entries, uint32_t number, uint32_t value,
                      const uint32_t *expected)
{
    lend(l);
    expect_reply(what, starts(a, l.count, words, entries), number, value);
    expect_area(what, words, clears(number));
    expect_lengths(what, l, expected, number == 0 ? l.count : 0);
}

/* The lengths of a list, in just as many words as there are lengths and in more; where there are fewer, 19 tells how many there are. A work
   area with a word too few is told before that. */
static void started(const char *what, struct ask a, struct list l, const uint32_t *expected)
{
    const uint32_t count = (uint32_t)l.count;
    starts_in(what, a, l, needed(a), count, 0, count, expected);
    starts_in(what, a, l, needed(a) + 100, count + 1, 0, count, expected);
    starts_in(what, a, l, needed(a), LISTED, 0, count, expected);
    if (count > 0) {
        starts_in(what, a, l, needed(a), count - 1, CHAINS_OUTPUT_TOO_SMALL, count, NULL);
        starts_in(what, a, l, needed(a) + 100, 0, CHAINS_OUTPUT_TOO_SMALL, count, NULL);
    }
    starts_in(what, a, l, needed(a) - 1, count, CHAINS_WORK_AREA_TOO_SMALL, 0, NULL);
    starts_in(what, a, l, needed(a) - 1, 0, CHAINS_WORK_AREA_TOO_SMALL, 0, NULL);
}

/* Refused, whatever is lent. */
static void starts_refused(const char *what, struct ask a, struct list l, uint32_t number)
{
    const size_t words[2] = {0, WORDS}, entries[3] = {0, l.count, LISTED};
    for (size_t i = 0; i < 2; i++) {
        for (size_t j = 0; j < 3; j++) {
            starts_in(what, a, l, words[i], entries[j], number, 0, NULL);
        }
    }
}

/* Any number of lines of kinds 1 to 4: all that the lines of R have. */
static const uint8_t ANY_LINES[12] = {0x26, 0x24, 0x24, 0x21, 1, 0x21, 2, 0x24, 0x21, 3, 0x21, 4};

static const uint16_t PLACES[6] = {0, 1, 2, 3, 0, 4};
static const struct list ALL = {PLACES, 4}, ALL_AND_0 = {PLACES, 5}, ONE = {PLACES, 1}, EMPTY = {PLACES, 0};

static void test_starts(void)
{
    const uint8_t line_3[2] = {0x21, 3}, repeat_nothing[2] = {0x26, 0x20};
    const uint16_t zeros[3] = {0, 0, 0}, back[7] = {3, 3, 2, 1, 1, 0, 3};
    const struct list three = {zeros, 3}, backward = {back, 7};
    started("starts, R and P, to 3", R_P, ALL_AND_0, (const uint32_t[]){3, NONE, NONE, NONE, 3});
    started("starts, R and P, one to 3", R_P, ONE, (const uint32_t[]){3});
    started("starts, R and P, none to 3", R_P, EMPTY, NULL);
    started("starts, R and P, to 0", (struct ask){&r, P, 15, 0, 0}, ALL_AND_0, (const uint32_t[]){NONE, NONE, NONE, NONE, NONE});
    started("starts, R with line 7 and P", (struct ask){&r_with_7, P, 15, 0, 3}, ALL, (const uint32_t[]){3, NONE, NONE, NONE});
    started("starts, R without line 5 and P", (struct ask){&r_without_5, P, 15, 0, 3}, ALL, (const uint32_t[]){NONE, NONE, NONE, NONE});
    started("starts, T and S, one", T_S, ONE, (const uint32_t[]){4});
    started("starts, T and S, three times the same", T_S, three, (const uint32_t[]){4, 4, 4});
    started("starts, E and 20", (struct ask){&e, NOTHING, 1, 0, 0}, three, (const uint32_t[]){0, 0, 0});
    started("starts, E and 20, none", (struct ask){&e, NOTHING, 1, 0, 0}, EMPTY, NULL);
    started("starts, E and 21 03", (struct ask){&e, line_3, 2, 0, 0}, ONE, (const uint32_t[]){NONE});
    started("starts, R and 26 20", (struct ask){&r, repeat_nothing, 2, 0, 1}, ALL, (const uint32_t[]){NONE, 0, NONE, NONE});
    started("starts, R and its lines, to 3", (struct ask){&r, ANY_LINES, 12, 0, 3}, ALL, (const uint32_t[]){3, 2, 1, 0});
    started("starts, R and its lines, to 2", (struct ask){&r, ANY_LINES, 12, 0, 2}, ALL_AND_0, (const uint32_t[]){2, 1, 0, NONE, 2});
    started("starts, R and its lines, to 0", (struct ask){&r, ANY_LINES, 12, 0, 0}, ALL, (const uint32_t[]){0, NONE, NONE, NONE});
    started("starts, in another order", (struct ask){&r, ANY_LINES, 12, 0, 3}, backward, (const uint32_t[]){0, 0, 1, 2, 2, 3, 0});
    starts_in("starts, no words for no places", R_P, EMPTY, 0, 0, CHAINS_WORK_AREA_TOO_SMALL, 0, NULL);
}

/* The questions in their order: of the record, of the pattern, 15, 16, 17, 19. Each request fails the later ones as well. */
static void test_starts_refused(void)
{
    static struct record day;
    static const uint16_t far[5] = {0, 4, 65535, 1024, 9};
    const struct list nowhere = {far, 5};
    const struct ask damaged = {&day, P, 0, 0, 9};

    memset(day.at, 0, sizeof day.at);
    day.len = CHAINS_LONGEST_RECORD + 1;
    starts_refused("starts, 57,349 bytes", damaged, nowhere, CHAINS_RECORD_TOO_LONG);
    day = r;
    day.len = 0;
    starts_refused("starts, no record", damaged, nowhere, CHAINS_PLACES_OUT_OF_RANGE);
    day.len = r.len - 1;
    starts_refused("starts, a record without its end", damaged, nowhere, CHAINS_ENTRY_NOT_KNOWN);
    starts_refused("starts, a record without its end, none", damaged, EMPTY, CHAINS_ENTRY_NOT_KNOWN);
    day.len = r.len - 2;
    starts_refused("starts, a line cut short", damaged, nowhere, CHAINS_LINE_CUT_SHORT);
    day.len = r.len + 1;
    day.at[r.len] = 0;
    starts_refused("starts, a record that goes on", damaged, nowhere, CHAINS_BYTES_AFTER_END);
    day.at[6] = 0;
    starts_refused("starts, a line of kind 0", damaged, nowhere, CHAINS_LINE_KIND_OUT_OF_RANGE);
    day.at[5] = 4;
    starts_refused("starts, a line from place 4 of 4", damaged, nowhere, CHAINS_LINE_PLACE_NOT_THERE);

    const uint8_t line_0[2] = {0x21, 0}, unkept[3] = {0x22, 1, 0}, two[2] = {0x20, 0x20}, turned[4] = {0x2A, 1, 0, 0x20};
    const uint8_t four_keeps[13] = {0x27, 1, 0, 0x27, 1, 1, 0x27, 1, 2, 0x27, 1, 3, 0x20};
    const uint8_t too_long[9] = {0x26, 0x26, 0x26, 0x2A, 0, 20, 0x24, 0x20, 0x20};
    uint8_t repeats[64];
    memset(repeats, 0x26, 64);
    repeats[63] = 0x20;
    const struct {
        uint32_t number;
        const uint8_t *pat;
        size_t pat_len;
    } patterns[9] = {{8, P, 0}, {9, repeats, 64}, {10, line_0, 1}, {11, line_0, 2}, {12, unkept, 3}, {13, four_keeps, 13},
                     {14, two, 2}, {24, turned, 4}, {25, too_long, 9}};
    for (size_t i = 0; i < 9; i++) {
        const struct ask asked = {&r, patterns[i].pat, patterns[i].pat_len, 0, 9};
        starts_refused("starts, a pattern that is refused", asked, nowhere, patterns[i].number);
        starts_refused("starts, a pattern that is refused, none", asked, EMPTY, patterns[i].number);
    }

    const struct ask to_4 = {&r, P, 15, 0, 4};
    const uint16_t first[4] = {4, 0, 1, 2};
    const uint32_t missing = CHAINS_ASKED_PLACE_NOT_THERE;
    starts_refused("starts, a list of place 4 of 4", R_P, (struct list){first, 1}, missing);
    starts_refused("starts, the first of the list alone", R_P, (struct list){first, 4}, missing);
    starts_refused("starts, the last of the list alone", R_P, (struct list){PLACES, 6}, missing);
    starts_refused("starts, a list of place 65,535", R_P, (struct list){far + 2, 1}, missing);
    starts_refused("starts, all of the list but one", R_P, nowhere, missing);
    starts_refused("starts, the finishing place alone", to_4, ALL, missing);
    starts_refused("starts, the finishing place of no starts", to_4, EMPTY, missing);
    starts_refused("starts, every place", to_4, (struct list){far + 1, 4}, missing);
}

/* 1,024 places, 15 commands, one keep: 63 boats are the most. 15 is told before the size, and the size before the area. */
static void test_starts_large(void)
{
    static struct record day;
    static const uint16_t ends[4] = {0, 1023, 0, 1024};
    const struct list three = {ends, 3}, four = {ends, 4};
    uint8_t pattern[18] = {0x27, 1, 0};
    memset(pattern + 3, 0x26, 13);
    pattern[16] = 0x21;
    pattern[17] = 1;
    const struct ask large = {&day, pattern, 18, 0, 0}, nowhere = {&day, pattern, 18, 0, 1024};
    begin(&day, 1024);
    for (uint32_t boat = 0; boat < 63; boat++) {
        add(&day, (struct line){0, 1, 1, boat, 0});
    }
    starts_in("starts, 63 boats, 1,024 of 1,024", large, four, 0, 0, CHAINS_ASKED_PLACE_NOT_THERE, 0, NULL);
    starts_in("starts, 63 boats, too few words", large, three, WORDS, 0, CHAINS_WORK_AREA_TOO_SMALL, 0, NULL);
    uint32_t *words = malloc(4202496 * sizeof *words);
    if (words == NULL) {
        expect("memory for the largest area", 0);
        return;
    }
    memset(words, 0xA5, 4202496 * sizeof *words);
    uint32_t found[4] = {DIRT, DIRT, DIRT, DIRT};
    const uint32_t lent[4] = {1, NONE, 1, DIRT};
    expect_reply("starts, 63 boats", chains_starts(day.at, day.len, pattern, 18, ends, 3, 0, words, 4202496, found, 4), 0, 3);
    expect("starts, 63 boats", memcmp(found, lent, sizeof found) == 0);
    int zeros = 1;
    for (size_t i = 0; i < 4202496; i++) {
        zeros = zeros && words[i] == 0;
    }
    expect("starts, 63 boats: the work area afterwards", zeros);
    free(words);

    add(&day, (struct line){0, 1, 1, 63, 0});
    starts_refused("starts, 64 boats", large, three, CHAINS_SEARCH_TOO_LARGE);
    starts_refused("starts, 64 boats, none", large, EMPTY, CHAINS_SEARCH_TOO_LARGE);
    starts_refused("starts, 64 boats and no such place", large, four, CHAINS_ASKED_PLACE_NOT_THERE);
    starts_refused("starts, 64 boats and nowhere to go", nowhere, three, CHAINS_ASKED_PLACE_NOT_THERE);
    starts_refused("starts, 64 boats and nowhere to go, none", nowhere, EMPTY, CHAINS_ASKED_PLACE_NOT_THERE);
}

/* A hundred boats, each with the same way of 922 lines between its own two, 924 lines for each of them: up to 92,400 in all. */
static void test_starts_far(void)
{
    static struct record day;
    static const uint8_t relay[11] = {0x26, 0x27, 1, 0, 0x25, 0x26, 0x21, 2, 0x22, 3, 0};
    enum { BOATS = 100, FIRST = BOATS + 1, LAST = 1023, NEEDED = 4 * 1024 * 7 * 102 + 8192 };
    begin(&day, 1024);
    for (uint16_t place = FIRST; place < LAST; place++) {
        add(&day, (struct line){place, 2, 9, 9, (uint16_t)(place + 1)});
    }
    for (uint16_t boat = 0; boat < BOATS; boat++) {
        add(&day, (struct line){boat, 1, 1, boat + 1u, FIRST});
        add(&day, (struct line){LAST, 3, 1, boat + 1u, (uint16_t)(boat + 1)});
    }
    expect_words("starts, a hundred boats", day.at, day.len, relay, 11, 0, NEEDED);
    uint32_t *words = malloc(NEEDED * sizeof *words);
    if (words == NULL) {
        expect("memory for a hundred boats", 0);
        return;
    }
    uint16_t places[1024];
    uint32_t far[1024];
    for (uint16_t place = 0; place < 1024; place++) {
        places[place] = (uint16_t)(1023 - place);
        far[1023 - place] = place <= BOATS ? 924u * (BOATS - place) : NONE;
    }
    const struct list all = {places, 1024};
    lend(all);
    memset(words, 0xA5, NEEDED * sizeof *words);
    expect_reply("starts, a hundred boats",
                 chains_starts(day.at, day.len, relay, 11, lent_list, 1024, BOATS, words, NEEDED, lengths + EDGE, 1024), 0, 1024);
    expect_lengths("starts, a hundred boats", all, far, 1024);
    expect("starts, a hundred boats: from the first", lengths[EDGE + 1023] == 92400);
    free(words);
}

/* A list with more places than 16 bits can count, and than a record has; each of them is asked about. */
static void test_starts_many(void)
{
    static uint16_t places[LISTED];
    static uint32_t expected[LISTED];
    const struct ask asked = {&r, ANY_LINES, 12, 0, 3};
    const struct list many = {places, 70000};
    for (uint32_t i = 0; i < 70000; i++) {
        places[i] = (uint16_t)(i / 7 % 4);
        expected[i] = 3 - places[i];
    }
    started("70,000 starts", asked, many, expected);
    started("65,536 starts", asked, (struct list){places, 65536}, expected);
    started("65,537 starts", asked, (struct list){places, 65537}, expected);
    const size_t at[4] = {0, 65535, 65536, 69999};
    for (size_t i = 0; i < 4; i++) {
        const uint16_t place = places[at[i]];
        places[at[i]] = 4;
        starts_refused("70,000 starts, one of them not there", asked, many, CHAINS_ASKED_PLACE_NOT_THERE);
        places[at[i]] = place;
    }
}

/* A list with more places than a value can say: 19 says as many as it can. The places are all 0, in memory that nothing is written to. */
static void test_starts_beyond(void)
{
#if SIZE_MAX > UINT32_MAX
    const size_t count = (size_t)UINT32_MAX + 3;
    uint16_t *places = calloc(count, sizeof *places);
    if (places == NULL) {
        puts("no memory for 4,294,967,298 starts: they are not tested");
        return;
    }
    lend(EMPTY);
    const uint64_t reply = chains_starts(r.at, r.len, P, 15, places, count, 3, area + EDGE, 8704, lengths + EDGE, LISTED);
    expect_reply("4,294,967,298 starts", reply, CHAINS_OUTPUT_TOO_SMALL, UINT32_MAX);
    expect_area("4,294,967,298 starts", 8704, 1);
    expect_lengths("4,294,967,298 starts", EMPTY, NULL, 0);
    free(places);
#endif
}

/* What area and lengths hold before does not matter: zeros, ones, a search that is under way. */
static void test_starts_before(void)
{
    const uint32_t expected[5] = {3, NONE, NONE, NONE, 3};
    const int before[4] = {0, 1, 0x80, 0xFF};
    for (size_t i = 0; i < 5; i++) {
        lend(ALL_AND_0);
        if (i < 4) {
            memset(area + EDGE, before[i], 9000 * sizeof *area);
            memset(lengths + EDGE, before[i], 5 * sizeof *lengths);
        } else {
            expect_reply("starts, a search before", chains_search_begin(r.at, r.len, P, 15, 0, 3, area + EDGE, 9000), 0, 0);
            expect_reply("starts, a search before", chains_search_move(area + EDGE, 9000, 5), 0, 5);
        }
        expect_reply("starts, whatever was there", starts(R_P, 5, 9000, 5), 0, 5);
        expect_area("starts, whatever was there", 9000, 1);
        expect_lengths("starts, whatever was there", ALL_AND_0, expected, 5);
    }
}

/* ---- many starts, beside a find for each */

/* Numbers below a limit, in an order that looks like none and is the same each time. */
static uint32_t drawn(uint32_t below)
{
    static uint32_t state = 1;
    state = state * 1664525u + 1013904223u;
    return (state >> 8) % below;
}

/* A day of up to five places, with up to fifteen lines of three kinds; some numbers are not read. */
static void draw_day(struct record *day, uint16_t places)
{
    begin(day, places);
    for (uint32_t lines = drawn(16); lines > 0; lines--) {
        const uint16_t from = (uint16_t)drawn(places), to = (uint16_t)drawn(places);
        const uint8_t kind = (uint8_t)(1 + drawn(3)), class_ = (uint8_t)drawn(3);
        add(day, (struct line){from, kind, class_, drawn(2), to});
    }
}

/* What a find says of one place, with an output that is long enough: its length, or the mark. */
static uint32_t length_from(struct ask a)
{
    static uint32_t work[WORDS];
    const uint64_t reply = call_find(a, work, needed(a), output, 0);
    expect("a find without an output", !chains_refused(reply) || chains_number(reply) == CHAINS_OUTPUT_TOO_SMALL);
    return chains_value(reply);
}

/* Days and lists that are drawn, with every place as the last: the lengths are those of a find for each. */
static void test_starts_and_finds(void)
{
    static const struct {
        uint8_t at[16];
        size_t len;
    } patterns[12] = {
        {{0x20}, 1},
        {{0x21, 1}, 2},
        {{0x26, 0x24, 0x21, 1, 0x24, 0x21, 2, 0x21, 3}, 9},                       /* any number of lines */
        {{0x25, 0x26, 0x21, 1, 0x25, 0x21, 2, 0x26, 0x21, 3}, 10},                /* a 2 between 1s and 3s */
        {{0x27, 1, 0, 0x26, 0x24, 0x22, 2, 0, 0x22, 3, 0}, 11},                   /* one boat's lines */
        {{0x27, 1, 0, 0x25, 0x26, 0x23, 2, 0, 0x22, 3, 0}, 11},                   /* others between its two */
        {{0x27, 1, 0, 0x25, 0x26, 0x28, 2, 0, 0x28, 3, 0}, 11},                   /* its sisters */
        {{0x27, 2, 0, 0x24, 0x29, 1, 0, 0x25, 0x29, 3, 0, 0x29, 1, 0}, 14},       /* boats of another class */
        {{0x26, 0x27, 1, 0, 0x25, 0x26, 0x21, 2, 0x22, 3, 0}, 11},                /* boat after boat */
        {{0x27, 1, 0, 0x27, 2, 1, 0x25, 0x22, 3, 0, 0x24, 0x23, 1, 1, 0x20}, 15}, /* two boats */
        {{0x2A, 2, 4, 0x24, 0x21, 1, 0x21, 2}, 8},                                /* two to four lines */
        {{0x2A, 0, 3, 0x27, 3, 0, 0x24, 0x20, 0x22, 1, 0}, 11},                   /* rounds with a boat of their own */
    };
    static struct record day;
    size_t found = 0, none = 0, longer = 0;
    for (size_t i = 0; i < 60; i++) {
        const uint16_t places = (uint16_t)(1 + drawn(5));
        draw_day(&day, places);
        for (size_t j = 0; j < 12; j++) {
            for (uint16_t to = 0; to < places; to++) {
                uint16_t list[9];
                uint32_t expected[9];
                const struct list l = {list, drawn(10)};
                for (size_t k = 0; k < l.count; k++) {
                    list[k] = (uint16_t)drawn(places);
                    expected[k] = length_from((struct ask){&day, patterns[j].at, patterns[j].len, list[k], to});
                    found += expected[k] != NONE;
                    none += expected[k] == NONE;
                    longer += expected[k] != NONE && expected[k] > 2;
                }
                const struct ask asked = {&day, patterns[j].at, patterns[j].len, 0, to};
                starts_in("starts as the finds", asked, l, needed(asked), l.count, 0, (uint32_t)l.count, expected);
            }
        }
    }
    expect("of the starts some are found, some far away, some not at all", found > 1000 && longer > 100 && none > 1000);
}

/* ---- searches in steps */

/* How many states the searches of R and P, and of T and S, take up: those expanded backward, and then all that were found but the goal. */
enum { STATES_R_P = 4 + 4, STATES_T_S = 9 + 9 };

/* Area and output, all of them, at an earlier time. */
static uint32_t kept_area[EDGE + WORDS + EDGE];
static uint16_t kept_output[EDGE + ENTRIES + EDGE];

static void keep(void)
{
    memcpy(kept_area, area, sizeof area);
    memcpy(kept_output, output, sizeof output);
}

static void put_back(void)
{
    memcpy(area, kept_area, sizeof area);
    memcpy(output, kept_output, sizeof output);
}

static int as_kept(void)
{
    return memcmp(area, kept_area, sizeof area) == 0 && memcmp(output, kept_output, sizeof output) == 0;
}

/* Is what stands around so many words and entries as it was kept? */
static int around_as_kept(size_t words, size_t entries)
{
    const size_t w = EDGE + words, n = EDGE + entries;
    return memcmp(area, kept_area, EDGE * sizeof *area) == 0 && memcmp(area + w, kept_area + w, sizeof area - w * sizeof *area) == 0 &&
           memcmp(output, kept_output, EDGE * sizeof *output) == 0 &&
           memcmp(output + n, kept_output + n, sizeof output - n * sizeof *output) == 0;
}

static uint32_t search_needed(struct ask a)
{
    return chains_value(chains_search_words(a.rec->at, a.rec->len, a.pat, a.pat_len));
}

static uint64_t search_begin(struct ask a, size_t words)
{
    return given == NULL ? chains_search_begin(a.rec->at, a.rec->len, a.pat, a.pat_len, a.from, a.to, area + EDGE, words)
                         : chains_search_begin_with(a.rec->at, a.rec->len, a.pat, a.pat_len, a.from, a.to, given->at, given->len,
                                                    area + EDGE, words);
}

static uint64_t search_move(size_t words, size_t amount)
{
    return chains_search_move(area + EDGE, words, amount);
}

static uint64_t search_finish(size_t words, size_t entries)
{
    return chains_search_finish(area + EDGE, words, output + EDGE, entries);
}

/* A search begun in so many words, which were dirty: its first word is not 0, and all around it is dirty as before. */
static void begin_in(const char *what, struct ask a, size_t words)
{
    make_dirty();
    expect_reply(what, search_begin(a, words), 0, 0);
    int holds = area[EDGE] != 0;
    for (size_t i = 0; i < EDGE + WORDS + EDGE; i++) {
        holds = holds && ((i >= EDGE && i < EDGE + words) || area[i] == DIRT);
    }
    expect(what, holds);
}

/* A begin that is refused: the area is as it was. */
static void begin_refused(const char *what, struct ask a, size_t words, uint32_t number)
{
    make_dirty();
    expect_reply(what, search_begin(a, words), number, 0);
    expect_area(what, words, 0);
}

/* The search in the area finished: the reply, the area, which is zeros, and the output. After it a move and a second finish find no search. */
static void finish_in(const char *what, size_t words, size_t entries, uint32_t number, uint32_t value, const uint16_t *chain)
{
    expect_reply(what, search_finish(words, entries), number, value);
    expect_area(what, words, 1);
    expect_output(what, chain, number == 0 && value != CHAINS_NO_CHAIN ? value : 0);
    keep();
    expect_reply(what, search_finish(words, entries), CHAINS_NO_SEARCH, 0);
    expect_reply(what, search_move(words, 1), CHAINS_NO_SEARCH, 0);
    expect(what, as_kept());
}

/* Moves of 1 up to the end, so many of them; there no amount changes anything. */
static void move_to_end(const char *what, struct ask a, size_t words, uint32_t states)
{
    const uint32_t size = (needed(a) - 8192) / 4;
    expect(what, states <= 2 * size + 2);
    for (uint32_t i = 0; i < states; i++) {
        expect_reply(what, search_move(words, 1), 0, 1);
    }
    keep();
    expect_reply(what, search_move(words, 1), 0, 0);
    expect_reply(what, search_move(words, 0), 0, 0);
    expect_reply(what, search_move(words, SIZE_MAX), 0, 0);
    expect(what, as_kept());
}

/* A search of so many states, finished at once, half way, and at its end, which is reached by moves of 1 and by one move. */
static void stepped_in(const char *what, struct ask a, size_t words, size_t entries, uint32_t states, uint32_t number, uint32_t value,
                       const uint16_t *chain)
{
    begin_in(what, a, words);
    finish_in(what, words, entries, number, value, chain);

    begin_in(what, a, words);
    expect_reply(what, search_move(words, states / 2), 0, states / 2);
    expect_reply(what, search_move(words, 0), 0, 0);
    finish_in(what, words, entries, number, value, chain);

    begin_in(what, a, words);
    move_to_end(what, a, words, states);
    finish_in(what, words, entries, number, value, chain);

    begin_in(what, a, words);
    expect_reply(what, search_move(words, SIZE_MAX), 0, states);
    finish_in(what, words, entries, number, value, chain);
}

/* The chain is found, in an exact output and in a longer one; one entry fewer is refused with its length. */
static void stepped(const char *what, struct ask a, uint32_t states, const uint16_t *chain, uint32_t length)
{
    const size_t words = search_needed(a);
    stepped_in(what, a, words, length, states, 0, length, chain);
    stepped_in(what, a, words + 100, ENTRIES, states, 0, length, chain);
    if (length > 0) {
        stepped_in(what, a, words, length - 1, states, CHAINS_OUTPUT_TOO_SMALL, length, chain);
        stepped_in(what, a, words, 0, states, CHAINS_OUTPUT_TOO_SMALL, length, chain);
    }
}

static void stepped_none(const char *what, struct ask a, uint32_t states)
{
    stepped_in(what, a, search_needed(a), 0, states, 0, CHAINS_NO_CHAIN, output);
    stepped_in(what, a, search_needed(a) + 100, ENTRIES, states, 0, CHAINS_NO_CHAIN, output);
}

/* The words needed, and the questions of a begin: those of a find but 19, and 17 for three words more for each line. */
static void test_search_begin(void)
{
    expect("words of a search, R and P", search_needed(R_P) == 8704 + 3 * 7);
    expect("words of a search, T and S", search_needed(T_S) == needed(T_S) + 3 * 2);
    expect("words of a search, E and 20", search_needed((struct ask){&e, NOTHING, 1, 0, 0}) == 8200);
    begin_refused("search, a word too few", R_P, 8704 + 3 * 7 - 1, CHAINS_WORK_AREA_TOO_SMALL);
    begin_refused("search, the words of a find", R_P, 8704, CHAINS_WORK_AREA_TOO_SMALL);
    begin_refused("search, no words", R_P, 0, CHAINS_WORK_AREA_TOO_SMALL);

    const uint8_t turned[4] = {0x2A, 1, 0, 0x20}, too_long[9] = {0x26, 0x26, 0x26, 0x2A, 0, 20, 0x24, 0x20, 0x20};
    begin_refused("search, to place 4 of 4 in no words", (struct ask){&r, P, 15, 0, 4}, 0, CHAINS_ASKED_PLACE_NOT_THERE);
    begin_refused("search, from place 4 of 4", (struct ask){&r, P, 15, 4, 0}, WORDS, CHAINS_ASKED_PLACE_NOT_THERE);
    begin_refused("search, an empty pattern", (struct ask){&r, P, 0, 9, 9}, WORDS, CHAINS_COMMAND_NOT_KNOWN);
    begin_refused("search, a pattern cut short", (struct ask){&r, P, 14, 9, 9}, WORDS, CHAINS_OPERANDS_MISSING);
    begin_refused("search, 24", (struct ask){&r, turned, 4, 9, 9}, WORDS, CHAINS_ROUNDS_OUT_OF_RANGE);
    begin_refused("search, 25", (struct ask){&r, too_long, 9, 9, 9}, WORDS, CHAINS_UNFOLDED_TOO_LONG);
    static struct record day;
    day = r;
    day.len--;
    begin_refused("search, a record without its end", (struct ask){&day, P, 0, 9, 9}, WORDS, CHAINS_ENTRY_NOT_KNOWN);
    expect_reply("words of a search, a record without its end", chains_search_words(day.at, day.len, P, 0), CHAINS_ENTRY_NOT_KNOWN, 0);
    expect_reply("words of a search, a pattern cut short", chains_search_words(r.at, r.len, P, 14), CHAINS_OPERANDS_MISSING, 0);

    /* 1,024 places, 15 commands, one keep: 63 boats are the most. A place that is not there is told before the size. */
    uint8_t pattern[18] = {0x27, 1, 0};
    memset(pattern + 3, 0x26, 13);
    pattern[16] = 0x21;
    pattern[17] = 1;
    const struct ask large = {&day, pattern, 18, 0, 0}, nowhere = {&day, pattern, 18, 0, 1024};
    begin(&day, 1024);
    for (uint32_t boat = 0; boat < 63; boat++) {
        add(&day, (struct line){0, 1, 1, boat, 0});
    }
    expect("words of a search, 63 boats", search_needed(large) == 4202496 + 3 * 63);
    add(&day, (struct line){0, 1, 1, 63, 0});
    expect_reply("words of a search, 64 boats", chains_search_words(day.at, day.len, pattern, 18), CHAINS_SEARCH_TOO_LARGE, 0);
    begin_refused("search, 64 boats", large, WORDS, CHAINS_SEARCH_TOO_LARGE);
    begin_refused("search, 64 boats and no such place", nowhere, WORDS, CHAINS_ASKED_PLACE_NOT_THERE);
}

/* The rows of find, each with the count of its states. Where the empty chain is accepted, or nothing is found but the goal, that is 0 or 1. */
static void test_search(void)
{
    const uint16_t c125[3] = {1, 2, 5}, c037[3] = {0, 3, 7}, c0010[4] = {0, 0, 1, 0}, c0[1] = {0};
    const uint8_t line_1[2] = {0x21, 1}, line_3[2] = {0x21, 3}, repeat_nothing[2] = {0x26, 0x20};
    stepped("search R, P, 0 to 3", R_P, STATES_R_P, c125, 3);
    stepped("search R with line 7, P, 0 to 3", (struct ask){&r_with_7, P, 15, 0, 3}, 7 + 7, c037, 3);
    stepped_none("search R without line 5, P, 0 to 3", (struct ask){&r_without_5, P, 15, 0, 3}, 2);
    stepped("search T, S, 0 to 0", T_S, STATES_T_S, c0010, 4);
    stepped("search R, 21 01, 0 to 1", (struct ask){&r, line_1, 2, 0, 1}, 1 + 1, c0, 1);
    stepped("search E, 20, 0 to 0", (struct ask){&e, NOTHING, 1, 0, 0}, 0, c0, 0);
    stepped_none("search E, 21 03, 0 to 0", (struct ask){&e, line_3, 2, 0, 0}, 1);
    stepped_none("search R, 26 20, 0 to 1", (struct ask){&r, repeat_nothing, 2, 0, 1}, 1);

    /* Line 0 leads on from two first states, and the lower line after it from one of the two only. */
    static struct record day;
    const uint8_t one_two[11] = {0x24, 0x25, 0x21, 1, 0x21, 2, 0x25, 0x21, 1, 0x21, 1};
    const uint8_t two_one[11] = {0x24, 0x25, 0x21, 1, 0x21, 1, 0x25, 0x21, 1, 0x21, 2};
    const uint16_t c00[2] = {0, 0};
    begin(&day, 1);
    add(&day, (struct line){0, 1, 1, 1, 0});
    add(&day, (struct line){0, 2, 1, 1, 0});
    stepped("search, two ways from one line", (struct ask){&day, one_two, 11, 0, 0}, 3 + 4, c00, 2);
    stepped("search, two ways from one line, the other first", (struct ask){&day, two_one, 11, 0, 0}, 3 + 4, c00, 2);
}

/* The area after so many states is the same by whatever amounts, and whatever it held before begin. */
static void test_search_moves(void)
{
    const struct ask asked[2] = {R_P, T_S};
    const uint32_t states[2] = {STATES_R_P, STATES_T_S};
    for (size_t i = 0; i < 2; i++) {
        const size_t words = search_needed(asked[i]) + 100;
        for (uint32_t count = 0; count <= states[i]; count++) {
            begin_in("moves of 1", asked[i], words);
            for (uint32_t j = 0; j < count; j++) {
                expect_reply("a move of 1", search_move(words, 1), 0, 1);
            }
            keep();
            begin_in("other moves", asked[i], words);
            memset(area + EDGE, 0, words * sizeof *area);
            expect_reply("begun in zeros", search_begin(asked[i], words), 0, 0);
            expect_reply("a first move", search_move(words, count / 3), 0, count / 3);
            expect_reply("a move of 0", search_move(words, 0), 0, 0);
            expect_reply("a second move", search_move(words, count - count / 3), 0, count - count / 3);
            expect("the area by whatever amounts", as_kept());
        }
    }
}

/* Lines are added while the search is under way: the reply is that for the record at the beginning. */
static void test_search_lines_added(void)
{
    static struct record day;
    uint8_t pattern[15];
    const uint16_t c125[3] = {1, 2, 5}, c037[3] = {0, 3, 7};
    const struct ask asked = {&day, pattern, 15, 0, 3};
    for (uint32_t count = 0; count <= STATES_R_P; count++) {
        day = r;
        memcpy(pattern, P, 15);
        const size_t words = search_needed(asked);
        begin_in("lines added", asked, words);
        expect_reply("lines added, moved", search_move(words, count), 0, count);
        add(&day, (struct line){2, 4, 1, 150, 3});
        finish_in("lines added", words, 3, 0, 3, c125);
        found("lines added, asked anew", asked, c037, 3);

        /* A record and a pattern that are no more. */
        day = r;
        begin_in("nothing left of the day", asked, words);
        memset(day.at, 0xFF, sizeof day.at);
        memset(pattern, 0xFF, 15);
        expect_reply("nothing left of the day, moved", search_move(words, count), 0, count);
        finish_in("nothing left of the day", words, 3, 0, 3, c125);
    }
}

/* A copy of the area is the same search: it is finished as the first one is, and neither knows of the other. */
static void test_search_copied(void)
{
    const uint16_t c125[3] = {1, 2, 5};
    const size_t words = search_needed(R_P);
    for (uint32_t count = 0; count <= STATES_R_P; count++) {
        static uint32_t copy[WORDS];
        uint16_t out[4] = {9, 9, 9, 9};
        begin_in("copied", R_P, words);
        expect_reply("copied, moved", search_move(words, count), 0, count);
        memcpy(copy, area + EDGE, words * sizeof *copy);
        finish_in("copied", words, 3, 0, 3, c125);
        expect_reply("a copy", chains_search_finish(copy, words, out, 4), 0, 3);
        expect("a copy", memcmp(out, c125, sizeof c125) == 0 && out[3] == 9);
    }
}

/* 26, before all other questions and with everything as it was: no words, zeros, and a first word of 0 whatever comes after it. */
static void test_no_search(void)
{
    const size_t words[5] = {0, 1, 2, 8725, WORDS}, entries[3] = {0, 1, ENTRIES}, amounts[3] = {0, 1, SIZE_MAX};
    for (size_t i = 0; i < 5; i++) {
        for (size_t zeros = 0; zeros < 2; zeros++) {
            make_dirty();
            if (words[i] > 0) {
                memset(area + EDGE, 0, (zeros ? words[i] : 1) * sizeof *area);
            }
            keep();
            for (size_t j = 0; j < 3; j++) {
                expect_reply("a move without a search", search_move(words[i], amounts[j]), CHAINS_NO_SEARCH, 0);
                expect_reply("a finish without a search", search_finish(words[i], entries[j]), CHAINS_NO_SEARCH, 0);
                expect("26 leaves area and output", as_kept());
            }
        }
    }

    /* A search whose first word is gone, and the search with it again. */
    const uint16_t c125[3] = {1, 2, 5};
    begin_in("a first word gone", R_P, 8725);
    const uint32_t first = area[EDGE];
    area[EDGE] = 0;
    keep();
    expect_reply("a move, its first word gone", search_move(8725, 1), CHAINS_NO_SEARCH, 0);
    expect_reply("a finish, its first word gone", search_finish(8725, 3), CHAINS_NO_SEARCH, 0);
    expect("26 leaves what is left of a search", as_kept());
    area[EDGE] = first;
    finish_in("a first word back", 8725, 3, 0, 3, c125);
}

/* A move and a finish in an area that may not be as it was left: they return and write to nothing but what is lent, 26 leaves all as it was,
   and no answer is longer than the output. The area is afterwards as it was before. */
static void harmless(const char *what, size_t words, size_t entries, size_t amount)
{
    keep();
    const uint64_t moved = search_move(words, amount);
    int holds = around_as_kept(words, 0);
    if (chains_refused(moved)) {
        holds = holds && chains_number(moved) == CHAINS_NO_SEARCH && chains_value(moved) == 0 && as_kept();
    } else {
        holds = holds && chains_value(moved) <= amount;
    }
    put_back();
    const uint64_t finished = search_finish(words, entries);
    holds = holds && around_as_kept(words, entries);
    size_t length = 0;
    if (chains_number(finished) == CHAINS_NO_SEARCH) {
        holds = holds && chains_value(finished) == 0 && as_kept();
    } else {
        holds = holds && (!chains_refused(finished) || chains_too_long(finished, &length));
        holds = holds && (!chains_found(finished, &length) || length <= entries);
    }
    put_back();
    tests++;
    if (!holds) {
        failures++;
        printf("fails: %s: what a move and a finish write\n", what);
    }
}

/* Every word of an area in turn altered, in several ways, at the beginning, in each phase and at the end. */
static void alter_each(struct ask a, uint32_t count)
{
    const size_t words = search_needed(a);
    begin_in("altered", a, words);
    expect_reply("altered, moved", search_move(words, count), 0, count);
    for (size_t i = 0; i < words; i++) {
        const uint32_t word = area[EDGE + i];
        const uint32_t altered[7] = {0, 1, word + 1, word - 1, 2 * word + 7, word ^ 0x80000000u, UINT32_MAX};
        for (size_t j = 0; j < 7; j++) {
            area[EDGE + i] = altered[j];
            harmless("a word altered", words, 3, 1000);
        }
        area[EDGE + i] = word;
    }
}

static void test_search_altered(void)
{
    alter_each(R_P, 0);
    alter_each(R_P, 2);
    alter_each(R_P, STATES_R_P - 2);
    alter_each(R_P, STATES_R_P);
    alter_each(T_S, 3);
    alter_each(T_S, STATES_T_S - 5);
    make_dirty();
    harmless("dirt", WORDS, ENTRIES, 1000);

    /* The front of one search and the end of another, parted at every word. */
    static uint32_t other[WORDS];
    const size_t words = search_needed(R_P);
    begin_in("parted", T_S, words);
    expect_reply("parted, moved", search_move(words, 7), 0, 7);
    memcpy(other, area + EDGE, words * sizeof *other);
    begin_in("parted", R_P, words);
    expect_reply("parted, moved", search_move(words, 5), 0, 5);
    for (size_t i = 0; i < words; i++) {
        area[EDGE + i] = other[i];
        harmless("two searches in one area", words, ENTRIES, 1000);
    }
}

/* An area cut short at every word: what lies past the cut is not lent. */
static void test_search_cut(void)
{
    for (uint32_t count = 1; count < STATES_R_P; count += 5) {
        begin_in("cut short", R_P, 8725);
        expect_reply("cut short, moved", search_move(8725, count), 0, count);
        for (size_t words = 0; words < 8725; words++) {
            harmless("an area cut short", words, 3, 1000);
        }
    }
}

/* ---- lines with a time */

static uint64_t add_timed_to(struct record *rec, struct line l, uint32_t time)
{
    return chains_add_timed(rec->at, sizeof rec->at, rec->len, l.from, l.kind, l.class_, l.sail, l.to, time);
}

static void add_timed(struct record *rec, struct line l, uint32_t time)
{
    uint64_t reply = add_timed_to(rec, l, time);
    expect_reply("add timed", reply, 0, (uint32_t)rec->len + 14);
    rec->len = chains_value(reply);
}

/* The questions in their order: 20, those of the record, 5, 6, 28, 21, 22, 23. Each request fails later ones as well. */
static void test_add_timed(void)
{
    enum { LATE = CHAINS_DAY, SAIL = 16777216 };
    uint8_t buf[20] = {1, 0, 2, 0, 9, 9, 9, 9, 9, 9, 9, 9, 9, 9, 9, 9, 9, 9, 9, 9};
    uint8_t same[20];
    memcpy(same, buf, 20);
    expect_reply("add timed, length 18 of 17", chains_add_timed(buf, 17, 18, 2, 0, 1, SAIL, 2, LATE), CHAINS_LENGTH_BEYOND_BUFFER, 0);
    expect_reply("add timed, no record", chains_add_timed(buf, 17, 0, 2, 0, 1, SAIL, 2, LATE), CHAINS_PLACES_OUT_OF_RANGE, 0);
    expect_reply("add timed, no end byte", chains_add_timed(buf, 17, 3, 2, 0, 1, SAIL, 2, LATE), CHAINS_ENTRY_NOT_KNOWN, 0);
    expect_reply("add timed, bytes after the end", chains_add_timed(buf, 17, 5, 2, 0, 1, SAIL, 2, LATE), CHAINS_BYTES_AFTER_END, 0);
    expect_reply("add timed, from place 2 of 2", chains_add_timed(buf, 17, 4, 2, 0, 1, SAIL, 1, LATE), CHAINS_LINE_PLACE_NOT_THERE, 0);
    expect_reply("add timed, to place 2 of 2", chains_add_timed(buf, 17, 4, 0, 0, 1, SAIL, 2, LATE), CHAINS_LINE_PLACE_NOT_THERE, 0);
    expect_reply("add timed, kind 0", chains_add_timed(buf, 17, 4, 0, 0, 1, SAIL, 1, LATE), CHAINS_LINE_KIND_OUT_OF_RANGE, 0);
    expect_reply("add timed, kind 16", chains_add_timed(buf, 17, 4, 0, 16, 1, SAIL, 1, LATE), CHAINS_LINE_KIND_OUT_OF_RANGE, 0);
    expect_reply("add timed, at 86,400", chains_add_timed(buf, 17, 4, 0, 1, 1, SAIL, 1, LATE), CHAINS_LINE_TIME_OUT_OF_RANGE, 0);
    expect_reply("add timed, at 2^32 - 1", chains_add_timed(buf, 20, 4, 0, 1, 1, 1, 1, UINT32_MAX), CHAINS_LINE_TIME_OUT_OF_RANGE, 0);
    expect_reply("add timed, sail number 2^24", chains_add_timed(buf, 17, 4, 0, 1, 1, SAIL, 1, 86399), CHAINS_SAIL_NUMBER_TOO_LARGE, 0);
    expect_reply("add timed, 17 bytes", chains_add_timed(buf, 17, 4, 0, 1, 1, 1, 1, 86399), CHAINS_BUFFER_TOO_SMALL, 0);
    expect_reply("add timed, 14 bytes", chains_add_timed(buf, 14, 4, 0, 1, 1, 1, 1, 0), CHAINS_BUFFER_TOO_SMALL, 0);
    expect("add timed: a refusal alters no byte", memcmp(buf, same, 20) == 0);
    const uint8_t added[20] = {1, 0, 2, 3, 0, 1, 15, 255, 1, 2, 3, 0, 0, 0, 1, 0x51, 0x7F, 0, 9, 9};
    expect_reply("add timed", chains_add_timed(buf, 18, 4, 1, 15, 255, 0x010203, 0, 86399), 0, 18);
    expect("add timed: fifteen bytes are written", memcmp(buf, added, 20) == 0);

    /* Lines of both sorts after each other. */
    static struct record day;
    const uint8_t both[38] = {1, 0, 2, 2, 0, 0, 1, 1, 0, 0, 7, 0, 1, 3, 0, 1, 2, 0, 0, 0, 0, 0, 0, 0, 0, 0, 5, 2, 0, 1, 3, 2, 0, 1, 0, 0, 0, 0};
    begin(&day, 2);
    add(&day, (struct line){0, 1, 1, 7, 1});
    add_timed(&day, (struct line){1, 2, 0, 0, 0}, 5);
    add(&day, (struct line){1, 3, 2, 256, 0});
    expect("lines of both sorts", day.len == 38 && memcmp(day.at, both, 38) == 0);
}

/* Five words of a line without a time, six of one with a time; where fewer are lent, none. */
static void test_read_timed(void)
{
    static struct record day;
    const struct line l = {258, 15, 255, 0xFEDCBA, 1023};
    const uint32_t times[4] = {0, 5, 65536, 86399}, same[8] = {9, 9, 9, 9, 9, 9, 9, 9};
    begin(&day, 1024);
    for (size_t i = 0; i < 4; i++) {
        add(&day, l);
        add_timed(&day, l, times[i]);
    }
    for (uint16_t i = 0; i < 8; i++) {
        const int timed = i % 2 == 1;
        const uint32_t count = timed ? CHAINS_TIMED_FIELDS : CHAINS_FIELDS, shown[5] = {258, 15, 255, 0xFEDCBA, 1023};
        for (size_t lent = 0; lent <= 8; lent++) {
            uint32_t fields[8], expected[8];
            memcpy(fields, same, sizeof same);
            memcpy(expected, same, sizeof same);
            if (lent >= count) {
                memcpy(expected, shown, sizeof shown);
                expected[CHAINS_FIELD_TIME] = timed ? times[i / 2] : 9;
            }
            const uint64_t reply = chains_read(day.at, day.len, i, fields, lent);
            expect_reply("read, with a time or without", reply, 0, lent >= count ? count : 0);
            expect("read, with a time or without", memcmp(fields, expected, sizeof fields) == 0);
            expect("a line with a time is timed", chains_timed(reply) == (timed && lent >= count));
        }
    }
    uint32_t fields[8];
    memcpy(fields, same, sizeof same);
    expect_reply("read, line 8 of 8", chains_read(day.at, day.len, 8, fields, 8), CHAINS_LINE_NOT_THERE, 0);
    expect("read, line 8 of 8", memcmp(fields, same, sizeof fields) == 0);
}

/* R with times, line i at 100 * (i + 1), and line 7 after it. */
static struct record r_timed;

/* A time changes nothing that is asked without windows: sizes, boats, and every chain. */
static void test_times_alone(void)
{
    begin(&r_timed, 4);
    for (uint32_t i = 0; i < 7; i++) {
        add_timed(&r_timed, LINES_OF_R[i], 100 * (i + 1));
    }
    const struct ask asked = {&r_timed, P, 15, 0, 3};
    const uint16_t c125[3] = {1, 2, 5}, c037[3] = {0, 3, 7}, c025[3] = {0, 2, 5};
    expect("words of R with times", needed(asked) == 8704 && search_needed(asked) == 8704 + 3 * 7);
    boats_counted("boats of R with times", r_timed.at, r_timed.len, 3, 13);
    found("R with times", asked, c125, 3);
    check("R with times, 1 2 5", asked, c125, 3, 1);
    check("R with times, 0 2 5", asked, c025, 3, 0);
    started("R with times, starts", asked, ALL_AND_0, (const uint32_t[]){3, NONE, NONE, NONE, 3});
    stepped("R with times, in steps", asked, STATES_R_P, c125, 3);
    add_timed(&r_timed, (struct line){2, 4, 1, 150, 3}, 800);
    found("R with times and line 7", asked, c037, 3);
    stepped("R with times and line 7, in steps", asked, 7 + 7, c037, 3);
}

/* ---- stored records with times */

/* A record that is refused, by every function that is given one and with all else wrong too: nothing that is lent is altered. */
static void record_refused(const char *what, const struct record *rec, uint32_t number)
{
    static struct record day;
    static const uint16_t far[2] = {65535, 0};
    static const struct options bad = {{5, 5}, CHAINS_OPTIONS};
    static const struct list nowhere = {far, 2};
    const struct ask asked = {rec, P, 0, 65535, 65535};
    uint32_t fields[8] = {9, 9, 9, 9, 9, 9, 9, 9};
    const uint32_t same[8] = {9, 9, 9, 9, 9, 9, 9, 9};
    expect_reply(what, chains_read(rec->at, rec->len, 65535, fields, 8), number, 0);
    expect(what, memcmp(fields, same, sizeof fields) == 0);
    boats_refused(what, rec->at, rec->len, number);
    expect_words(what, rec->at, rec->len, P, 0, number, 0);
    expect_reply(what, chains_search_words(rec->at, rec->len, P, 0), number, 0);
    for (size_t i = 0; i < 2; i++) {
        given = i == 0 ? NULL : &bad;
        check_in(what, asked, far, 2, 0, number, 0);
        find_in(what, asked, 9000, ENTRIES, number, 0, far);
        starts_in(what, asked, nowhere, 9000, 0, number, 0, NULL);
        begin_refused(what, asked, 9000, number);
    }
    given = NULL;
    memcpy(&day, rec, sizeof day);
    expect_reply(what, add_to(&day, (struct line){65535, 0, 0, UINT32_MAX, 65535}), number, 0);
    expect_reply(what, add_timed_to(&day, (struct line){65535, 0, 0, UINT32_MAX, 65535}, UINT32_MAX), number, 0);
    expect(what, memcmp(&day, rec, sizeof day) == 0);
}

/* A record of one place whose first lines have no time, and then some that have one, put down by bytes. */
static void put_lines(struct record *rec, size_t untimed, size_t timed)
{
    static const uint8_t line[14] = {2, 0, 0, 1, 1, 0, 0, 1, 0, 0, 0, 0, 0, 5};
    memset(rec->at, 0, sizeof rec->at);
    rec->at[0] = rec->at[2] = 1;
    rec->len = 3;
    for (size_t i = 0; i < untimed + timed; i++) {
        const size_t width = i < untimed ? 10 : 14;
        memcpy(rec->at + rec->len, line, width);
        rec->at[rec->len] = i < untimed ? 2 : 3;
        rec->len += width;
    }
    rec->at[rec->len++] = 0;
}

/* The record as it is put down above is read; with this byte altered it is refused. */
static void byte_refused(const char *what, struct record *rec, size_t at, uint8_t byte, uint32_t number)
{
    const uint8_t before = rec->at[at];
    rec->at[at] = byte;
    record_refused(what, rec, number);
    rec->at[at] = before;
}

/* The walk of a line with a time: 3, 4, 5, 6, 28, line by line. */
static void test_stored(void)
{
    static struct record day;
    uint32_t fields[CHAINS_TIMED_FIELDS];
    put_lines(&day, 0, 2);
    expect("two lines with a time", day.len == 32);
    for (uint16_t i = 0; i < 2; i++) {
        expect_reply("a line with a time", chains_read(day.at, day.len, i, fields, CHAINS_TIMED_FIELDS), 0, CHAINS_TIMED_FIELDS);
        expect("a line with a time", fields[CHAINS_FIELD_TIME] == 5);
    }
    /* A record cut anywhere: between its lines and in them. */
    for (day.len = 3; day.len < 32; day.len++) {
        record_refused("a record cut short", &day, day.len == 3 || day.len == 17 || day.len == 31 ? CHAINS_ENTRY_NOT_KNOWN : CHAINS_LINE_CUT_SHORT);
    }
    day.len = 33;
    record_refused("a byte after the end", &day, CHAINS_BYTES_AFTER_END);
    day.len = 32;
    byte_refused("04 for 03", &day, 3, 4, CHAINS_ENTRY_NOT_KNOWN);
    byte_refused("04 for the second 03", &day, 17, 4, CHAINS_ENTRY_NOT_KNOWN);
    byte_refused("a time above 24 bits", &day, 13, 1, CHAINS_LINE_TIME_OUT_OF_RANGE);
    byte_refused("a time above 31 bits", &day, 27, 0x80, CHAINS_LINE_TIME_OUT_OF_RANGE);
    /* Both lines at 86,399, and then the first at 86,400. */
    for (size_t at = 13; at <= 27; at += 14) {
        const uint8_t last_second[4] = {0, 1, 0x51, 0x7F};
        memcpy(day.at + at, last_second, 4);
    }
    expect_reply("at 86,399", chains_read(day.at, day.len, 1, fields, CHAINS_TIMED_FIELDS), 0, CHAINS_TIMED_FIELDS);
    expect("at 86,399", fields[CHAINS_FIELD_TIME] == 86399);
    byte_refused("the second at 86,400", &day, 30, 0x80, CHAINS_LINE_TIME_OUT_OF_RANGE);
    day.at[16] = 0x80;
    record_refused("at 86,400", &day, CHAINS_LINE_TIME_OUT_OF_RANGE);
    byte_refused("at 86,400, the second line from place 1", &day, 19, 1, CHAINS_LINE_TIME_OUT_OF_RANGE);
    byte_refused("at 86,400, and no second line", &day, 17, 4, CHAINS_LINE_TIME_OUT_OF_RANGE);
    byte_refused("at 86,400, of kind 0", &day, 6, 0, CHAINS_LINE_KIND_OUT_OF_RANGE);
    day.at[6] = 16;
    byte_refused("at 86,400, of kind 16, to place 1", &day, 12, 1, CHAINS_LINE_PLACE_NOT_THERE);
    day.len = 16;
    record_refused("of kind 16, a byte too few", &day, CHAINS_LINE_CUT_SHORT);
}

/* 22 is asked of the 4,097th line, of either sort and before it is looked at; a record of 4,096 has 40,964 to 57,348 bytes. */
static void test_stored_full(void)
{
    static struct record day;
    uint32_t fields[CHAINS_TIMED_FIELDS];
    const size_t timed[4] = {0, 1, 2048, 4096};
    for (size_t i = 0; i < 4; i++) {
        put_lines(&day, 4096 - timed[i], timed[i]);
        expect("bytes of 4,096 lines", day.len == 3 + 10 * 4096 + 4 * timed[i] + 1);
        boats_counted("4,096 lines", day.at, day.len, 1, 4095);
        expect_reply("line 4,095", chains_read(day.at, day.len, 4095, fields, CHAINS_TIMED_FIELDS), 0, timed[i] > 0 ? 6 : 5);
        expect_reply("line 4,096", chains_read(day.at, day.len, 4096, fields, CHAINS_TIMED_FIELDS), CHAINS_LINE_NOT_THERE, 0);
        /* 28 and 21 come before 22, and 22 before 23. */
        const struct line good = {0, 1, 1, 1, 0}, sail = {0, 1, 1, 16777216, 0};
        expect_reply("add to 4,096 lines", add_to(&day, good), CHAINS_RECORD_FULL, 0);
        expect_reply("add timed to 4,096 lines", add_timed_to(&day, good, 5), CHAINS_RECORD_FULL, 0);
        expect_reply("add timed to 4,096 lines, at 86,400", add_timed_to(&day, sail, 86400), CHAINS_LINE_TIME_OUT_OF_RANGE, 0);
        expect_reply("add timed to 4,096 lines, sail number 2^24", add_timed_to(&day, sail, 5), CHAINS_SAIL_NUMBER_TOO_LARGE, 0);
        const uint64_t no_room = chains_add_timed(day.at, day.len, day.len, 0, 1, 1, 1, 0, 5);
        expect_reply("add timed to 4,096 lines, no room", no_room, CHAINS_RECORD_FULL, 0);
        /* A line more, of which there is no more than its first byte. */
        byte_refused("4,096 lines and 02", &day, day.len - 1, 2, CHAINS_RECORD_FULL);
        byte_refused("4,096 lines and 03", &day, day.len - 1, 3, CHAINS_RECORD_FULL);
        byte_refused("4,096 lines and 04", &day, day.len - 1, 4, CHAINS_ENTRY_NOT_KNOWN);
        day.len--;
        record_refused("4,096 lines and no end", &day, CHAINS_ENTRY_NOT_KNOWN);
    }
    expect("the longest record", day.len + 1 == CHAINS_LONGEST_RECORD);
    day.len = CHAINS_LONGEST_RECORD + 1;
    record_refused("a byte more than the longest", &day, CHAINS_RECORD_TOO_LONG);
    byte_refused("a byte more, and no places", &day, 0, 0, CHAINS_RECORD_TOO_LONG);

    put_lines(&day, 4097, 0);
    record_refused("4,097 lines", &day, CHAINS_RECORD_FULL);
    byte_refused("4,097 lines, the last of kind 0", &day, 3 + 10 * 4096 + 3, 0, CHAINS_RECORD_FULL);
    byte_refused("4,097 lines, the one before of kind 0", &day, 3 + 10 * 4095 + 3, 0, CHAINS_LINE_KIND_OUT_OF_RANGE);
    put_lines(&day, 4, 4093);
    record_refused("4,097 lines, with times", &day, CHAINS_RECORD_FULL);
    byte_refused("4,097 lines, one at 86,400 or later", &day, 3 + 10 * 4 + 10, 1, CHAINS_LINE_TIME_OUT_OF_RANGE);
}

/* ---- windows of the day */

static struct options whole_day(void)
{
    struct options o = {{0}, CHAINS_OPTIONS};
    for (size_t i = 0; i < sizeof o.at / sizeof o.at[0]; i++) {
        o.at[i] = i >= CHAINS_OPTIONS ? DIRT : i % 2 == 0 ? 0 : CHAINS_DAY;
    }
    return o;
}

static void set_window(struct options *o, size_t kind, uint32_t open, uint32_t close)
{
    o->at[2 * (kind - 1)] = open;
    o->at[2 * (kind - 1) + 1] = close;
}

/* The whole day for every kind but one. */
static struct options window(size_t kind, uint32_t open, uint32_t close)
{
    struct options o = whole_day();
    set_window(&o, kind, open, close);
    return o;
}

/* Windows of the whole day, however many of them are lent: every row again, as without options. */
static void test_whole_day(void)
{
    for (size_t len = 0; len <= CHAINS_OPTIONS + 10; len += len % 3 + 1) {
        struct options o = whole_day();
        o.len = len;
        if (len % 2 == 1 && len < CHAINS_OPTIONS) {
            o.at[len - 1] = DIRT; /* an opening second without its closing one */
        }
        const struct options before = o;
        given = &o;
        test_check();
        test_find();
        test_starts();
        test_starts_refused();
        test_search();
        expect("options are only read", memcmp(&o, &before, sizeof o) == 0);

        /* The area of a search is, word by word, the same. */
        begin_in("begun with options", R_P, 9000);
        keep();
        given = NULL;
        begin_in("begun without options", R_P, 9000);
        expect("begun with options as without", as_kept());
    }
    struct options all = whole_day();
    given = &all;
    test_sizes();
    test_unread();
    test_classes();
    test_rounds();
    test_starts_large();
    test_starts_and_finds();
    test_search_begin();
    test_search_moves();
    given = NULL;
}

/* One line from 0 to 1, asked for by its kind with these options: found, or none. */
static void one_line(const char *what, const struct record *day, uint8_t kind, const struct options *o, int inside)
{
    const uint8_t pattern[2] = {0x21, kind};
    const uint16_t c0[1] = {0}, both[2] = {0, 1};
    const struct ask asked = {day, pattern, 2, 0, 1};
    given = o;
    check(what, asked, c0, 1, inside ? 1 : 0);
    started(what, asked, (struct list){both, 2}, inside ? (const uint32_t[]){1, NONE} : (const uint32_t[]){NONE, NONE});
    if (inside) {
        found(what, asked, c0, 1);
        stepped(what, asked, 1 + 1, c0, 1);
    } else {
        no_chain(what, asked);
        stepped_none(what, asked, 1);
    }
    given = NULL;
}

/* The opening second is inside and the closing one is not; without a time, the whole day alone will do. */
static void test_windows(void)
{
    enum { UNTIMED = 99999 };
    static const struct {
        uint32_t time, open, close;
        int inside;
    } rows[] = {
        {5, 5, 6, 1},         {5, 0, 5, 0},         {5, 6, 7, 0},         {5, 0, 6, 1},         {5, 4, 5, 0},
        {5, 5, 86400, 1},     {5, 6, 86400, 0},     {5, 0, 86400, 1},     {5, 0, 86399, 1},     {0, 0, 1, 1},
        {0, 1, 2, 0},         {0, 0, 86400, 1},     {0, 1, 86400, 0},     {86399, 0, 86399, 0}, {86399, 86399, 86400, 1},
        {86399, 1, 86400, 1}, {65541, 5, 6, 0},     {65541, 65541, 65542, 1},
        {UNTIMED, 0, 86400, 1}, {UNTIMED, 0, 86399, 0}, {UNTIMED, 1, 86400, 0}, {UNTIMED, 0, 1, 0}, {UNTIMED, 86399, 86400, 0},
    };
    static struct record day;
    for (size_t i = 0; i < sizeof rows / sizeof rows[0]; i++) {
        for (uint8_t kind = 1; kind <= 15; kind += 7) {
            const struct line l = {0, kind, 1, 1, 1};
            begin(&day, 2);
            if (rows[i].time == UNTIMED) {
                add(&day, l);
            } else {
                add_timed(&day, l, rows[i].time);
            }
            const struct options o = window(kind, rows[i].open, rows[i].close);
            one_line("one line and its window", &day, kind, &o, rows[i].inside);
        }
    }

    /* It is the window of the line's own kind that counts. */
    for (uint8_t kind = 1; kind <= 15; kind++) {
        const struct line l = {0, kind, 1, 1, 1};
        begin(&day, 2);
        add_timed(&day, l, 5);
        struct options own = window(kind, 6, 7), others = own;
        for (uint8_t other = 1; other <= 15; other++) {
            set_window(&others, other, other == kind ? 5 : 6, other == kind ? 6 : 7);
        }
        one_line("outside its own kind's window", &day, kind, &own, 0);
        one_line("outside the windows of others", &day, kind, &others, 1);
        begin(&day, 2);
        add(&day, l);
        set_window(&others, kind, 0, CHAINS_DAY);
        one_line("untimed, outside its own kind's window", &day, kind, &own, 0);
        one_line("untimed, outside the windows of others", &day, kind, &others, 1);
    }
}

/* A kind has its window where both its words are lent, and else the whole day; words from the 31st on are not read. */
static void test_option_counts(void)
{
    static struct record day;
    const size_t counts[12] = {0, 1, 2, 3, 4, 14, 15, 28, 29, 30, 31, 40};
    for (uint8_t kind = 1; kind <= 15; kind += kind == 2 ? 5 : kind == 7 ? 7 : 1) {
        begin(&day, 2);
        add_timed(&day, (struct line){0, kind, 1, 1, 1}, 5);
        for (size_t i = 0; i < 12; i++) {
            struct options o = whole_day();
            for (size_t other = 1; other <= 15; other++) {
                set_window(&o, other, 6, 7);
            }
            o.len = counts[i];
            if (o.len % 2 == 1 && o.len < CHAINS_OPTIONS) {
                o.at[o.len - 1] = DIRT;
            }
            one_line("so many words of options", &day, kind, &o, o.len < 2 * (size_t)kind);
        }
    }
}

/* Refused with these options, whatever is lent; and nothing is altered. */
static void request_refused(const char *what, struct ask a, const struct options *o, uint32_t number)
{
    static const uint16_t missing[2] = {0, 65535};
    const size_t words[3] = {0, 8704, WORDS};
    given = o;
    for (size_t i = 0; i < 3; i++) {
        check_in(what, a, missing, 2, words[i], number, 0);
        find_in(what, a, words[i], 0, number, 0, missing);
        find_in(what, a, words[i], ENTRIES, number, 0, missing);
        begin_refused(what, a, words[i], number);
    }
    starts_refused(what, a, ALL, number);
    starts_refused(what, a, EMPTY, number);
    given = NULL;
}

/* 27: every kind's window opens before it closes, and closes by 86,400. It is asked after 15 and before 16, 17, 18 and 19. */
static void test_windows_refused(void)
{
    static const uint32_t wrong[10][2] = {{0, 0},         {5, 5},     {6, 5},          {86400, 86400},           {86399, 86399},
                                          {86400, 86401}, {0, 86401}, {0, UINT32_MAX}, {UINT32_MAX, UINT32_MAX}, {UINT32_MAX, 0}};
    static const uint32_t right[4][2] = {{0, 1}, {86399, 86400}, {0, 86400}, {86398, 86399}};
    static struct record day;
    begin(&day, 4);
    for (size_t kind = 1; kind <= 15; kind++) {
        for (size_t i = 0; i < 10; i++) {
            const struct options o = window(kind, wrong[i][0], wrong[i][1]);
            request_refused("a window out of range", R_P, &o, CHAINS_WINDOW_OUT_OF_RANGE);
            request_refused("a window out of range, no lines", (struct ask){&day, NOTHING, 1, 0, 0}, &o, CHAINS_WINDOW_OUT_OF_RANGE);
        }
        for (size_t i = 0; i < 4; i++) {
            const struct options o = window(kind, right[i][0], right[i][1]);
            given = &o;
            found("a window in range, no lines", (struct ask){&day, NOTHING, 1, 0, 0}, output, 0);
            given = NULL;
        }
    }

    const struct options o = window(15, 5, 5);
    request_refused("27 after 15", (struct ask){&r, P, 15, 0, 4}, &o, CHAINS_ASKED_PLACE_NOT_THERE);
    request_refused("27 after 14", (struct ask){&r, P, 14, 0, 4}, &o, CHAINS_OPERANDS_MISSING);
    request_refused("27 after 8", (struct ask){&r, P, 0, 0, 4}, &o, CHAINS_COMMAND_NOT_KNOWN);
    day = r;
    day.len--;
    request_refused("27 after 3", (struct ask){&day, P, 0, 0, 4}, &o, CHAINS_ENTRY_NOT_KNOWN);

    /* Sixty-four boats are too many; so they are where every line is outside. */
    uint8_t pattern[18] = {0x27, 1, 0};
    memset(pattern + 3, 0x26, 13);
    pattern[16] = 0x21;
    pattern[17] = 1;
    const struct ask large = {&day, pattern, 18, 0, 0};
    begin(&day, 1024);
    for (uint32_t boat = 0; boat < 64; boat++) {
        add_timed(&day, (struct line){0, 1, 1, boat, 0}, 5);
    }
    const struct options outside = window(1, 6, 7);
    request_refused("27 before 16", large, &o, CHAINS_WINDOW_OUT_OF_RANGE);
    request_refused("16 by all lines", large, &outside, CHAINS_SEARCH_TOO_LARGE);
    request_refused("15 before 16 by all lines", (struct ask){&day, pattern, 18, 0, 1024}, &outside, CHAINS_ASKED_PLACE_NOT_THERE);
}

/* Lines outside are not in any chain, and the others keep their numbers. The work area is that for all lines. */
static void test_lines_outside(void)
{
    static const uint16_t chains[2][3] = {{1, 2, 5}, {0, 3, 7}};
    static const struct {
        uint32_t kind, open, close;
        int first, second; /* is 1 2 5 left, is 0 3 7? */
    } rows[] = {
        {4, 0, 86400, 1, 1}, {4, 0, 800, 1, 0},   {4, 600, 601, 1, 0},   {4, 601, 86400, 0, 1}, {4, 700, 800, 0, 0},
        {2, 0, 400, 1, 0},   {2, 400, 401, 0, 1}, {2, 301, 401, 0, 1},   {1, 200, 300, 1, 0},   {1, 100, 200, 0, 1},
        {1, 0, 100, 0, 0},   {3, 0, 1, 1, 1},     {5, 86399, 86400, 1, 1},
    };
    const struct ask asked = {&r_timed, P, 15, 0, 3};
    for (size_t i = 0; i < sizeof rows / sizeof rows[0]; i++) {
        struct options o = window(rows[i].kind, rows[i].open, rows[i].close);
        given = &o;
        const int left = rows[i].first || rows[i].second;
        const uint16_t *chain = chains[rows[i].second ? 1 : 0];
        check("1 2 5 in windows", asked, chains[0], 3, rows[i].first ? 1 : 0);
        check("0 3 7 in windows", asked, chains[1], 3, rows[i].second ? 1 : 0);
        started("R with times in windows", asked, ALL_AND_0, left ? (const uint32_t[]){3, NONE, NONE, NONE, 3}
                                                                 : (const uint32_t[]){NONE, NONE, NONE, NONE, NONE});
        if (left) {
            found("R with times in windows", asked, chain, 3);
        } else {
            no_chain("R with times in windows", asked);
        }
        /* Every line can be named, and one that is not there is told, also after a line outside. */
        const uint16_t missing[4] = {7, 5, 8, 0};
        check("a line that is outside or does not join", asked, missing, 2, 0);
        check_in("line 8 of 8", asked, missing, 3, 8704, CHAINS_LINE_NOT_THERE, 0);
        check_in("a word too few", asked, missing, 4, 8703, CHAINS_WORK_AREA_TOO_SMALL, 0);
        begin_refused("a word too few for a search", asked, 8704 + 3 * 8 - 1, CHAINS_WORK_AREA_TOO_SMALL);

        /* A search has its windows in the area: what becomes of the lent ones does not matter. */
        const struct options lent = o;
        for (uint32_t count = 0; count < 9; count += 4) {
            o = lent;
            begin_in("R with times in steps", asked, 8728);
            o = window(1, 5, 5);
            expect("R with times in steps", chains_value(search_move(8728, count)) <= count);
            finish_in("R with times in steps", 8728, 3, 0, left ? 3 : NONE, chain);
        }
        given = NULL;
    }

    /* Without line 7 in its window, the search is that of R: as many states are taken up. */
    const struct options o = window(4, 0, 800);
    given = &o;
    stepped("R with times in steps, line 7 outside", asked, STATES_R_P, chains[0], 3);
    given = NULL;
}

/* README's time limit: the finish closes at 15:00, and the boat that finishes at that second has no chain. */
static void test_time_limit(void)
{
    static struct record day;
    const uint8_t pattern[10] = {0x27, 1, 0, 0x25, 0x22, 2, 0, 0x22, 4, 0};
    const uint16_t c025[3] = {0, 2, 5}, c134[3] = {1, 3, 4};
    const struct ask asked = {&day, pattern, 10, 0, 3};
    begin(&day, 4);
    add(&day, (struct line){0, 1, 1, 7, 1});
    add(&day, (struct line){0, 1, 1, 9, 1});
    add_timed(&day, (struct line){1, 2, 1, 7, 2}, 36000);
    add_timed(&day, (struct line){1, 2, 1, 9, 2}, 36000);
    add_timed(&day, (struct line){2, 4, 1, 9, 3}, 53400);
    add_timed(&day, (struct line){2, 4, 1, 7, 3}, 54000);
    found("no time limit", asked, c025, 3);

    uint32_t options[CHAINS_OPTIONS]; /* open and close of kinds 1 to 15 in turn */
    for (size_t i = 0; i < CHAINS_OPTIONS; i++) {
        options[i] = i % 2 == 0 ? 0 : CHAINS_DAY;
    }
    options[2 * (4 - 1) + 1] = 54000; /* kind 4, finished, closes at 15:00 */
    struct options limit = {{0}, CHAINS_OPTIONS};
    memcpy(limit.at, options, sizeof options);
    given = &limit;
    found("a time limit", asked, c134, 3);
    check("a time limit, out of it", asked, c025, 3, 0);
    options[2 * (4 - 1) + 1] = 54001;
    memcpy(limit.at, options, sizeof options);
    found("a time limit a second later", asked, c025, 3);
    given = NULL;
}

/* ---- windows, beside a record of the lines inside */

/* A day that is drawn, in which half of the lines have a time, and the same day with the lines inside alone: their numbers in the first. */
static void draw_timed_day(struct record *day, struct record *inside, uint16_t *numbers, uint16_t places, const struct options *o)
{
    uint16_t number = 0;
    begin(day, places);
    begin(inside, places);
    for (uint32_t lines = drawn(16); lines > 0; lines--) {
        const uint16_t from = (uint16_t)drawn(places), to = (uint16_t)drawn(places);
        const uint8_t kind = (uint8_t)(1 + drawn(3)), class_ = (uint8_t)drawn(3);
        const struct line l = {from, kind, class_, drawn(2), to};
        const uint32_t open = o->at[2 * (kind - 1)], close = o->at[2 * (kind - 1) + 1], time = drawn(8);
        const int timed = drawn(2) == 1;
        if (timed) {
            add_timed(day, l, time);
        } else {
            add(day, l);
        }
        if (timed ? open <= time && time < close : open == 0 && close == CHAINS_DAY) {
            add(inside, l);
            *numbers++ = number;
        }
        number++;
    }
}

/* The chain that a find finds, its length, or the mark. */
static uint32_t chain_of(struct ask a, uint16_t *chain)
{
    static uint32_t work[WORDS];
    const uint64_t reply = call_find(a, work, needed(a), chain, 4096);
    expect("a find with an output that is long enough", !chains_refused(reply));
    return chains_value(reply);
}

/* Days and windows that are drawn: what is found is what is found in the record of the lines inside, by other numbers. Checker, starts and
   search say the same. */
static void test_windows_drawn(void)
{
    static const struct {
        uint8_t at[16];
        size_t len;
    } patterns[5] = {
        {{0x26, 0x24, 0x21, 1, 0x24, 0x21, 2, 0x21, 3}, 9},                       /* any number of lines */
        {{0x25, 0x26, 0x21, 1, 0x25, 0x21, 2, 0x26, 0x21, 3}, 10},                /* a 2 between 1s and 3s */
        {{0x27, 1, 0, 0x26, 0x24, 0x22, 2, 0, 0x22, 3, 0}, 11},                   /* one boat's lines */
        {{0x27, 1, 0, 0x27, 2, 1, 0x25, 0x22, 3, 0, 0x24, 0x23, 1, 1, 0x20}, 15}, /* two boats */
        {{0x2A, 2, 4, 0x24, 0x21, 1, 0x21, 2}, 8},                                /* two to four lines */
    };
    static struct record day, inside;
    static uint16_t all[4096], left[4096], stepped_out[4096];
    static uint32_t work[WORDS];
    size_t found = 0, none = 0, other = 0, outside = 0;
    for (size_t i = 0; i < 200; i++) {
        const uint16_t places = (uint16_t)(1 + drawn(5)), list[5] = {0, 1, 2, 3, 4};
        uint16_t numbers[16];
        struct options o = whole_day();
        for (size_t kind = 1; kind <= 3; kind++) {
            const uint32_t open = drawn(5), whole = drawn(3);
            if (whole > 0) {
                set_window(&o, kind, open, open + 1 + drawn(6));
            }
        }
        draw_timed_day(&day, &inside, numbers, places, &o);
        for (size_t j = 0; j < 5; j++) {
            for (uint16_t to = 0; to < places; to++) {
                uint32_t expected[5];
                for (uint16_t from = 0; from < places; from++) {
                    const struct ask asked = {&day, patterns[j].at, patterns[j].len, from, to};
                    const struct ask alone = {&inside, patterns[j].at, patterns[j].len, from, to};
                    const uint32_t whole = chain_of(asked, all);
                    const uint32_t length = chain_of(alone, left);
                    for (uint32_t k = 0; length != NONE && k < length; k++) {
                        left[k] = numbers[left[k]];
                    }
                    given = &o;
                    const uint64_t again = call_check(asked, all, whole == NONE ? 0 : whole, work, needed(asked));
                    const uint32_t with = chain_of(asked, all);
                    expect("found as in the lines inside", with == length && (with == NONE || memcmp(all, left, with * sizeof *all) == 0));
                    expect("checked as found", with == NONE || chains_yes(call_check(asked, all, with, work, needed(asked))));
                    begin_in("drawn, in steps", asked, search_needed(asked));
                    search_move(search_needed(asked), drawn(9));
                    const uint64_t finished = chains_search_finish(area + EDGE, search_needed(asked), stepped_out, 4096);
                    expect_reply("drawn, in steps", finished, 0, with);
                    expect("drawn, in steps", with == NONE || memcmp(stepped_out, all, with * sizeof *all) == 0);
                    given = NULL;
                    expected[from] = with;
                    found += with != NONE;
                    none += with == NONE;
                    other += with != NONE && with != whole;
                    outside += whole != NONE && chains_no(again);
                }
                const struct ask asked = {&day, patterns[j].at, patterns[j].len, 0, to};
                given = &o;
                starts_in("drawn, all starts", asked, (struct list){list, places}, needed(asked), places, 0, places, expected);
                given = NULL;
            }
        }
    }
    expect("of the chains some are found, some are others, some are none", found > 1000 && other > 20 && none > 1000 && outside > 100);
}

/* ---- replies taken apart, and the version */

static uint64_t reply_of(uint64_t number, uint64_t value)
{
    return number * 4294967296u + value;
}

/* A refusal is no answer of any sort, and leaves every length as it was. */
static void test_refused_replies(void)
{
    const uint64_t values[6] = {0, 1, 3, 5, CHAINS_TIMED_FIELDS, CHAINS_NO_CHAIN};
    for (uint64_t number = 1; number <= 28; number++) {
        for (size_t i = 0; i < 6; i++) {
            const uint64_t value = values[i], reply = reply_of(number, value);
            size_t length = 77;
            expect("a refusal is refused", chains_refused(reply));
            expect("a refusal has no length", !chains_length(reply, &length));
            expect("a refusal has no words", !chains_needed(reply, &length));
            expect("a refusal has no lengths", !chains_lengths(reply, &length));
            expect("a refusal is not begun and not moved", !chains_begun(reply) && !chains_moved(reply, &length));
            expect("a refusal is not found", !chains_found(reply, &length));
            expect("a refusal leaves the length", length == 77);
            expect("a refusal is not written", !chains_written(reply) && !chains_timed(reply));
            expect("a refusal is neither yes nor no", !chains_yes(reply) && !chains_no(reply));
            expect("a refusal is not none", !chains_none(reply));
            expect("19 alone has a length", chains_too_long(reply, &length) == (number == 19));
            expect("19 tells its length", length == (number == 19 ? value : 77));
        }
    }
}

static void test_replies(void)
{
    size_t length = 77;
    expect("none is none", chains_none(CHAINS_NO_CHAIN) && !chains_refused(CHAINS_NO_CHAIN));
    expect("none is not found", !chains_found(CHAINS_NO_CHAIN, &length) && length == 77);
    expect("none is not too long", !chains_too_long(CHAINS_NO_CHAIN, &length) && length == 77);
    expect("found is found", chains_found(3, &length) && length == 3 && !chains_none(3));
    expect("the empty chain is found", chains_found(0, &length) && length == 0 && !chains_none(0));
    expect("yes is yes", chains_yes(1) && !chains_no(1));
    expect("no is no", chains_no(0) && !chains_yes(0));
    expect("written", chains_written(6) && chains_written(5) && chains_written(2) && !chains_written(0));
    expect("timed", chains_timed(6) && !chains_timed(5) && !chains_timed(0));
    expect("words", chains_needed(8704, &length) && length == 8704);
    expect("lengths", chains_lengths(5, &length) && length == 5);
    expect("lengths of no places", chains_lengths(0, &length) && length == 0);
    expect("as many lengths as can be said", chains_lengths(UINT32_MAX, &length) && length == UINT32_MAX);
    expect("begun", chains_begun(0));
    expect("moved", chains_moved(7, &length) && length == 7);
    expect("moved by none", chains_moved(0, &length) && length == 0);

    /* The same of real replies. */
    uint8_t buf[4];
    expect("begin gives a length", chains_length(chains_begin(buf, 4, 1), &length) && length == 4);
    expect("a refused add keeps the length", !chains_length(chains_add(buf, 4, length, 0, 1, 1, 1, 0), &length) && length == 4);
    expect("a refused add of a time keeps the length", !chains_length(chains_add_timed(buf, 4, length, 0, 1, 1, 1, 0, 5), &length) && length == 4);
    const uint16_t missing[1] = {7};
    const uint64_t checked = chains_check(r.at, r.len, P, 15, 0, 3, missing, 1, area, WORDS);
    expect("a check of a missing line is neither", chains_refused(checked) && !chains_yes(checked) && !chains_no(checked));
    const uint64_t reply = chains_find(r.at, r.len, P, 15, 0, 3, area, WORDS, output, 2);
    expect("an output of 2 is not found", !chains_found(reply, &length) && !chains_none(reply) && length == 4);
    expect("an output of 2 is too short for 3", chains_too_long(reply, &length) && length == 3);
    uint32_t two[2];
    const uint64_t short_of = chains_starts(r.at, r.len, P, 15, PLACES, 5, 3, area, WORDS, two, 2);
    expect("two words are no lengths of five", !chains_lengths(short_of, &length) && length == 3);
    expect("two words are too few for five", chains_too_long(short_of, &length) && length == 5);
    const uint64_t started = chains_starts(r.at, r.len, P, 15, PLACES, 2, 3, area, WORDS, two, 2);
    expect("two lengths", chains_lengths(started, &length) && length == 2 && two[0] == 3 && two[1] == CHAINS_NO_CHAIN);
    expect("two lengths are not too many", !chains_too_long(started, &length) && length == 2);

    expect("the version is the header's", chains_version() == CHAINS_VERSION);
    char text[32];
    snprintf(text, sizeof text, "%d.%d.%d", CHAINS_VERSION / 1000000, CHAINS_VERSION / 1000 % 1000, CHAINS_VERSION % 1000);
    expect("the version's text", strcmp(text, CHAINS_VERSION_TEXT) == 0);
}

/* ---- sentences */

/* Every row of the list, number, tab and sentence, is what chains_message says; the rows are 1 to 28. */
static void test_messages(const char *path)
{
    FILE *list = fopen(path, "r");
    if (list == NULL) {
        expect("the list of sentences can be read", 0);
        return;
    }
    char row[400];
    uint32_t number = 0;
    while (fgets(row, sizeof row, list) != NULL) {
        number++;
        row[strcspn(row, "\n")] = '\0';
        char expected[400];
        snprintf(expected, sizeof expected, "%u\t%s", (unsigned)number, chains_message(number));
        tests++;
        if (strcmp(row, expected) != 0) {
            failures++;
            printf("fails: the sentence of %u: \"%s\" in the list\n", (unsigned)number, row);
        }
    }
    fclose(list);
    expect("the list has 28 sentences", number == 28);
    expect("0 is not refused", strcmp(chains_message(0), "not refused") == 0);
    const char *unknown = "this number is not that of a refusal";
    expect("29 is no refusal", strcmp(chains_message(29), unknown) == 0 && strcmp(chains_message(UINT32_MAX), unknown) == 0);
}

int main(int argc, char **argv)
{
    write_records();
    test_begin();
    test_add();
    test_read();
    test_words();
    test_pattern();
    test_boats();
    test_sizes();
    test_check();
    test_find();
    test_unread();
    test_classes();
    test_rounds();
    test_starts();
    test_starts_refused();
    test_starts_large();
    test_starts_far();
    test_starts_many();
    test_starts_beyond();
    test_starts_before();
    test_starts_and_finds();
    test_search_begin();
    test_search();
    test_search_moves();
    test_search_lines_added();
    test_search_copied();
    test_no_search();
    test_search_altered();
    test_search_cut();
    test_add_timed();
    test_read_timed();
    test_times_alone();
    test_stored();
    test_stored_full();
    test_whole_day();
    test_windows();
    test_option_counts();
    test_windows_refused();
    test_lines_outside();
    test_time_limit();
    test_windows_drawn();
    test_refused_replies();
    test_replies();
    test_messages(argc > 1 ? argv[1] : "include/refusals.txt");
    if (failures > 0) {
        printf("%d of %d tests fail\n", failures, tests);
        return 1;
    }
    printf("%d tests pass\n", tests);
    return 0;
}
