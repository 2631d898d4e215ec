/*
 * The grounds for a place in the results, from C: reads a folder's day.rec (the record) and ask.pat (from and to, two bytes each,
 * then the pattern), finds the first shortest chain and prints it, and then each of its lines.
 *
 *     gcc -std=c11 -Wall -Wextra -Werror -pedantic -Iinclude examples/c/worked_day.c target/libchains.a -o target/worked_day
 *     target/worked_day examples/day
 */
#include "chains.h"

#include <errno.h>
#include <stdio.h>
#include <stdlib.h>
#include <string.h>

/* Exit statuses, as those of the program chains. */
enum { CALLED_WRONGLY = 2, UNREADABLE = 4, UNWRITTEN = 5 };

/* Entries of output that are lent first; a longer chain is asked for once more. */
enum { FIRST_ENTRIES = 16 };

/* The bytes of a file. The pointer is never null. */
struct bytes {
    uint8_t *at;
    size_t count;
};

/* Memory for so many entries, and one at least: the pointer of an empty slice must not be null either. */
static void *room(size_t entries, size_t width)
{
    void *at = calloc(entries == 0 ? 1 : entries, width);
    if (at == NULL) {
        fputs("worked_day: no memory\n", stderr);
        exit(EXIT_FAILURE);
    }
    return at;
}

static void cannot_read(const char *name, int error)
{
    fprintf(stderr, "worked_day: %s cannot be read: %s\n", name, strerror(error));
    exit(UNREADABLE);
}

/* The first `most` bytes of a file; a missing file counts as empty. */
static struct bytes read_file(const char *folder, const char *name, size_t most)
{
    struct bytes file = {room(most, 1), 0};
    char path[4096];
    int length = snprintf(path, sizeof path, "%s/%s", folder, name);
    if (length < 0 || (size_t)length >= sizeof path) {
        cannot_read(name, ENAMETOOLONG);
    }
    FILE *opened = fopen(path, "rb");
    if (opened != NULL) {
        file.count = fread(file.at, 1, most, opened);
        if (ferror(opened)) {
            cannot_read(name, errno);
        }
        fclose(opened);
    } else if (errno != ENOENT) {
        cannot_read(name, errno);
    }
    return file;
}

/* The exit status: what was printed counts only when all of it is written. */
static int printed(void)
{
    int failed = ferror(stdout);
    if (fclose(stdout) != 0 || failed) {
        fputs("worked_day: standard output cannot be written to\n", stderr);
        return UNWRITTEN;
    }
    return 0;
}

/* Two bytes as a number, the high one first. */
static uint16_t number_at(const uint8_t *at)
{
    return (uint16_t)(at[0] * 256 + at[1]);
}

/* Prints `found`, the length and the line numbers, and then each line. */
static void print_chain(struct bytes day, const uint16_t *chain, size_t length)
{
    printf("found %zu:", length);
    for (size_t i = 0; i < length; i++) {
        printf(" %u", (unsigned)chain[i]);
    }
    putchar('\n');
    for (size_t i = 0; i < length; i++) {
        uint32_t field[CHAINS_TIMED_FIELDS];
        uint64_t reply = chains_read(day.at, day.count, chain[i], field, CHAINS_TIMED_FIELDS);
        if (chains_written(reply)) {
            printf("line %u: from %u, kind %u, class %u, sail number %u, to %u", (unsigned)chain[i],
                   (unsigned)field[CHAINS_FIELD_FROM], (unsigned)field[CHAINS_FIELD_KIND], (unsigned)field[CHAINS_FIELD_CLASS],
                   (unsigned)field[CHAINS_FIELD_SAIL], (unsigned)field[CHAINS_FIELD_TO]);
            if (chains_timed(reply)) {
                printf(", time %u", (unsigned)field[CHAINS_FIELD_TIME]);
            }
            putchar('\n');
        }
    }
}

/* Asks, and prints the answer; ask has four bytes at least. */
static void print_answer(struct bytes day, struct bytes ask)
{
    uint16_t from = number_at(ask.at);
    uint16_t to = number_at(ask.at + 2);
    const uint8_t *pattern = ask.at + 4;
    size_t pattern_count = ask.count - 4;

    /* Where chains_words refuses, an area of no words is lent: chains_find then asks the same questions, and 15 before 16. */
    size_t words = 0;
    chains_needed(chains_words(day.at, day.count, pattern, pattern_count), &words);
    uint32_t *work = room(words, sizeof *work);

    size_t entries = FIRST_ENTRIES;
    uint16_t *chain = room(entries, sizeof *chain);
    uint64_t reply = chains_find(day.at, day.count, pattern, pattern_count, from, to, work, words, chain, entries);
    if (chains_too_long(reply, &entries)) {
        free(chain);
        chain = room(entries, sizeof *chain);
        reply = chains_find(day.at, day.count, pattern, pattern_count, from, to, work, words, chain, entries);
    }

    size_t length = 0;
    if (chains_found(reply, &length)) {
        print_chain(day, chain, length);
    } else if (chains_none(reply)) {
        puts("none");
    } else {
        fprintf(stderr, "worked_day: %s\n", chains_message(chains_number(reply)));
        printf("refused %u\n", (unsigned)chains_number(reply));
    }
    free(chain);
    free(work);
}

int main(int argc, char **argv)
{
    if (argc != 2) {
        fputs("worked_day FOLDER, a folder with day.rec and ask.pat\n", stderr);
        return CALLED_WRONGLY;
    }
    /* One byte more than the longest record, so that a longer file is seen to be too long. */
    struct bytes day = read_file(argv[1], "day.rec", CHAINS_LONGEST_RECORD + 1);
    struct bytes ask = read_file(argv[1], "ask.pat", 4096);
    if (ask.count < 4) {
        puts("no question");
    } else {
        print_answer(day, ask);
    }
    free(ask.at);
    free(day.at);
    return printed();
}
