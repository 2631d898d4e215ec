/*
 * The chain finder for a sailing day's record: the functions of libchains.a and libchains.so, which `make lib` builds.
 *
 * A record is a day's written lines; a line has a kind and a boat (class and sail number), leads from a place to a place, and may have a
 * time. A pattern says which chains of lines are accepted. README.md explains the bytes of both.
 *
 * Boats compared. A line's boat is the slot's (same, 22) or another (other, 23); another one has the slot's class and another number
 * (sister, 28) or another class, whatever its number (foreign, 29).
 *
 * Unread numbers. Class 0 with sail number 0 says that the number was not read, so that nothing is known of the boat. A pattern's same,
 * other, sister and foreign all fail on such a line, and all fail where the slot holds such a number. Line (21) takes the line, keep (27)
 * keeps the number, and chains_boats and chains_words count all unread numbers as one boat. Class 0 alone, and number 0 alone, are boats.
 *
 * Rounds. A counted pattern (2A) accepts from its lowest to its highest count of rounds in a row, both ends allowed; a round may be empty,
 * and a boat that it keeps is known in that round only. Commands count once as they are written, and in the unfolded count as often as they
 * may come: a counted pattern has 1 + highest * the unfolded count of its pattern. The search goes by unfolded counts.
 *
 * Windows. A line's time is in seconds since midnight, 0 to 86,399. chains_find_with, chains_check_with, chains_starts_with and
 * chains_search_begin_with take a window of the day for each kind, and reply as for the record with only those lines that are inside the
 * window of their kind; lines keep their numbers. A window has an opening second, which is in it, and a closing second, which is not: a line
 * with a time is inside if open <= time < close. A line without a time is inside exactly if the window runs from 0 to 86,400, the whole day.
 * `options` has open and close of the kinds 1 to 15 in turn: word 2 * (kind - 1) opens, and the word after it closes. A kind without both its
 * words there, as where none are lent, has the whole day; words from the 31st on are not read. All lines count for the size of a search, for
 * the work area and for which lines there are, those outside too; so a checked chain with a line outside gets no. The functions without
 * options go by the whole day for every kind, so that times have no say in them.
 *
 * Slices. A pointer and the count that follows it are one slice: so many entries from there on. A pointer is never null and is
 * aligned to its type, also where the count is 0: lend the address of any variable of the type then. (malloc(0) may be null.)
 *
 * Overlap. A buffer that a function writes to (no const) must not overlap another buffer of the same call. Two buffers that are
 * only read may.
 *
 * Replies. Every function replies with one number of 64 bits: value + 2^32 * number. The number is 0, and the value is then what
 * the function says below; or a question about what was given was answered no, and the number is that question's (1 to 28,
 * enum chains_refusal). A refusal's value is 0, except with 19, where it is the length of the shortest chain, or with chains_starts how
 * many lengths there are. chains_length, chains_needed, chains_written, chains_timed, chains_yes, chains_no, chains_none, chains_found,
 * chains_too_long, chains_lengths, chains_begun and chains_moved take a reply apart so that a refusal is not taken for an answer.
 *
 * Questions. A record is asked 1 and 2; then at each line 3, 22, 4, 5, 6 and, where the line has a time, 28, in this order, and at the end 3
 * and 7. A pattern is asked 8, 9, 10, 11, 24, 12 and 13 at each of its commands, in this order, and when it is complete 14 and then 25. A
 * request is asked those of its record, those of its pattern, 15, 27, 16 and 17. 15 is one question about all places that are given, a list of
 * them too; 27 is one about all fifteen windows, also of kinds that neither the record nor the pattern has, and never fails without options.
 * 19 is asked when the shortest chain is known, but by chains_starts, whose lengths are as many as the list has places, before the search.
 *
 * Searches in steps. chains_search_begin takes what it needs of a record and a pattern into the work area, and searches nothing;
 * chains_search_move takes up so many states of the search (a state is a place, a spot in the pattern and the boats kept);
 * chains_search_finish takes up the rest and replies as chains_find does. Lines may be added to the record in between: the reply is that
 * for the record at the beginning, however the amounts are chosen. From begin to finish the area holds the search, in numbers that a copy
 * of it holds as well; lend all of the words that begin was lent, each time. Where they were altered or are fewer, a call returns and
 * writes to nothing but what it is lent, and no more is promised. The reply may then be 26, which leaves everything as it was.
 *
 * Stack. A call takes less than 64 KB of the thread's stack (CHAINS_STACK bytes), whatever it is given. The hungriest, chains_find
 * with 62 repeats inside each other, takes about 48,000 bytes as the library is built.
 *
 * No function fails in another way, whatever bytes and numbers it is given; none allocates, keeps a pointer or has a state, so
 * calls from several threads are safe as long as they do not share a buffer that is written to. A search is in its area alone, so it may
 * be moved on and finished by another thread than the one that began it.
 */
#ifndef CHAINS_H
#define CHAINS_H

#include <stdbool.h>
#include <stddef.h>
#include <stdint.h>

#ifdef __cplusplus
extern "C" {
#endif

/* The version that this header describes, as chains_version gives it: major * 1,000,000 + minor * 1,000 + patch. */
#define CHAINS_VERSION 1000000
#define CHAINS_VERSION_TEXT "1.0.0"

/* The question that was answered no. */
enum chains_refusal {
    CHAINS_NOT_REFUSED = 0,

    /* The record, entry by entry. */
    CHAINS_RECORD_TOO_LONG = 1,         /* the record has more than 57,348 bytes */
    CHAINS_PLACES_OUT_OF_RANGE = 2,     /* it does not begin with 01 and a count of 1 to 1,024 places */
    CHAINS_ENTRY_NOT_KNOWN = 3,         /* where a line (02, 03) or the end (00) must stand, there is another byte or none */
    CHAINS_LINE_CUT_SHORT = 4,          /* a line has fewer than its ten bytes, or its fourteen with a time */
    CHAINS_LINE_PLACE_NOT_THERE = 5,    /* a line's place is not below the count of places */
    CHAINS_LINE_KIND_OUT_OF_RANGE = 6,  /* a line's kind is not 1 to 15 */
    CHAINS_BYTES_AFTER_END = 7,         /* there are bytes after the record's end byte */
    CHAINS_RECORD_FULL = 22,            /* the record has more than 4,096 lines, or has that many where one is added */
    CHAINS_LINE_TIME_OUT_OF_RANGE = 28, /* a line's time is not below 86,400 */

    /* The pattern, command by command. */
    CHAINS_COMMAND_NOT_KNOWN = 8,       /* where a command (20 to 2A) must stand, there is another byte or none */
    CHAINS_TOO_MANY_COMMANDS = 9,       /* there are more than 63 commands */
    CHAINS_OPERANDS_MISSING = 10,       /* a command's kind, slot or counts are not there */
    CHAINS_OPERAND_OUT_OF_RANGE = 11,   /* a command's kind is not 1 to 15, or its slot is not 0 to 3 */
    CHAINS_SLOT_NOT_KEPT = 12,          /* same, other, sister or foreign names a slot that no keep around it keeps */
    CHAINS_KEEPS_TOO_DEEP = 13,         /* keeps are nested more than three deep */
    CHAINS_BYTES_AFTER_PATTERN = 14,    /* there are bytes after the complete pattern */
    CHAINS_ROUNDS_OUT_OF_RANGE = 24,    /* a lowest count of rounds is above the highest, or that is above 20 */
    CHAINS_UNFOLDED_TOO_LONG = 25,      /* the unfolded count is above 63 */

    /* The request. */
    CHAINS_ASKED_PLACE_NOT_THERE = 15,  /* an asked place, one of a list too, is not below the count of places */
    CHAINS_SEARCH_TOO_LARGE = 16,       /* the search size is above 1,048,576 */
    CHAINS_WORK_AREA_TOO_SMALL = 17,    /* the work area has fewer words than chains_words or chains_search_words says */
    CHAINS_LINE_NOT_THERE = 18,         /* a named line is not in the record */
    CHAINS_OUTPUT_TOO_SMALL = 19,       /* the output is shorter than the shortest chain or the list of places, whose length is the value */
    CHAINS_WINDOW_OUT_OF_RANGE = 27,    /* a window does not open before it closes, or closes after 86,400 */

    /* Writing. */
    CHAINS_LENGTH_BEYOND_BUFFER = 20,   /* the record's length is more than the buffer's */
    CHAINS_SAIL_NUMBER_TOO_LARGE = 21,  /* the sail number is not below 16,777,216 */
    CHAINS_BUFFER_TOO_SMALL = 23,       /* the buffer does not hold the record after the act */

    /* A search in steps. */
    CHAINS_NO_SEARCH = 26               /* the work area holds no search, or not one as a begin and its moves left it */
};

/* The value of chains_find and chains_search_finish where no chain is accepted, and among the lengths of chains_starts that of a place from
   which none is. */
#define CHAINS_NO_CHAIN UINT32_C(4294967295)

/* No record is longer, in bytes: a buffer of this size holds every day. */
#define CHAINS_LONGEST_RECORD 57348

/* The seconds of a day: every line's time is below it, and a window that runs from 0 to it is the whole day. */
#define CHAINS_DAY 86400

/* How many words the options of a request have: open and close of each of the kinds 1 to 15. */
#define CHAINS_OPTIONS 30

/* Where so many bytes of the thread's stack are left, they are enough for every call. */
#define CHAINS_STACK 65536

/* Where chains_read puts the fields of a line. */
enum chains_field {
    CHAINS_FIELD_FROM = 0,
    CHAINS_FIELD_KIND = 1,
    CHAINS_FIELD_CLASS = 2,
    CHAINS_FIELD_SAIL = 3,
    CHAINS_FIELD_TO = 4,
    CHAINS_FIELD_TIME = 5,  /* of a line that has a time */
    CHAINS_FIELDS = 5,      /* how many there are of a line without a time */
    CHAINS_TIMED_FIELDS = 6 /* how many there are of one with a time: lend so many for every line */
};

/* Where chains_pattern puts the counts of a pattern. */
enum chains_count {
    CHAINS_COUNT_COMMANDS = 0,
    CHAINS_COUNT_KEEPS = 1,
    CHAINS_COUNT_UNFOLDED = 2,
    CHAINS_COUNTS = 3 /* how many there are */
};

/* Where chains_boats puts the counts of a record. */
enum chains_boats_count {
    CHAINS_BOATS_DIFFERENT = 0,
    CHAINS_BOATS_READS = 1,
    CHAINS_BOATS_COUNTS = 2 /* how many there are */
};

/* ---- A reply taken apart */

/* The number of a reply: 0 (CHAINS_NOT_REFUSED), or that of the question that was answered no. */
static inline uint32_t chains_number(uint64_t reply)
{
    return (uint32_t)(reply >> 32);
}

/* The value of a reply: what the function says, or a refusal's second number. */
static inline uint32_t chains_value(uint64_t reply)
{
    return (uint32_t)(reply & UINT32_C(4294967295));
}

/* Was a question answered no? Every reply of every function below can be asked this. */
static inline bool chains_refused(uint64_t reply)
{
    return chains_number(reply) != CHAINS_NOT_REFUSED;
}

/* Of chains_begin, chains_add and chains_add_timed: true, and the record's new length; false, and *length as it was, where refused. */
static inline bool chains_length(uint64_t reply, size_t *length)
{
    if (chains_refused(reply)) {
        return false;
    }
    *length = chains_value(reply);
    return true;
}

/* Of chains_words and chains_search_words: true, and the words of work area; false, and *words as it was, where refused. */
static inline bool chains_needed(uint64_t reply, size_t *words)
{
    return chains_length(reply, words);
}

/* Of chains_read, chains_pattern and chains_boats: true where the lent words were written; false where refused, and where too few were
   lent. */
static inline bool chains_written(uint64_t reply)
{
    return !chains_refused(reply) && chains_value(reply) != 0;
}

/* Of chains_read: true where a line with a time was written, to six words; false where the line has none, and where nothing was written. */
static inline bool chains_timed(uint64_t reply)
{
    return !chains_refused(reply) && chains_value(reply) == CHAINS_TIMED_FIELDS;
}

/* What is said here of a function is said of its form with options as well. */

/* Of chains_check: was the answer yes? A refused check is neither yes nor no. */
static inline bool chains_yes(uint64_t reply)
{
    return !chains_refused(reply) && chains_value(reply) == 1;
}

/* Of chains_check: was the answer no? */
static inline bool chains_no(uint64_t reply)
{
    return !chains_refused(reply) && chains_value(reply) == 0;
}

/* Of chains_find and chains_search_finish: is there no accepted chain? A refused one is neither found nor none. */
static inline bool chains_none(uint64_t reply)
{
    return !chains_refused(reply) && chains_value(reply) == CHAINS_NO_CHAIN;
}

/* Of chains_find and chains_search_finish: true, and the chain's length, where it was found and stands in the output; else false, and
   *length as it was. */
static inline bool chains_found(uint64_t reply, size_t *length)
{
    return !chains_none(reply) && chains_length(reply, length);
}

/* Of chains_find and chains_search_finish: true, and the chain's length, where the output was too short for it (19); of chains_starts:
   true, and how many lengths there are, where it was too short for them (19). Else false, and *length as it was. */
static inline bool chains_too_long(uint64_t reply, size_t *length)
{
    if (chains_number(reply) != CHAINS_OUTPUT_TOO_SMALL) {
        return false;
    }
    *length = chains_value(reply);
    return true;
}

/* Of chains_starts: true, and how many lengths were written; false, and *count as it was, where refused. */
static inline bool chains_lengths(uint64_t reply, size_t *count)
{
    return chains_length(reply, count);
}

/* Of chains_search_begin: does the work area hold the search? */
static inline bool chains_begun(uint64_t reply)
{
    return !chains_refused(reply);
}

/* Of chains_search_move: true, and how many states were taken up; false, and *count as it was, where refused. */
static inline bool chains_moved(uint64_t reply, size_t *count)
{
    return chains_length(reply, count);
}

/* A refusal's number as a sentence for a results officer, without a capital letter and a full stop. */
static inline const char *chains_message(uint32_t number)
{
    switch (number) {
    case 0: return "not refused";
    case 1: return "the day's record is longer than 57,348 bytes";
    case 2: return "the day's record must begin with its count of places, 1 to 1,024";
    case 3: return "the day's record breaks off, or has something in it that is neither a line nor the end";
    case 4: return "the last line of the day's record is cut short";
    case 5: return "a line is from or to a place that the day's record does not have";
    case 6: return "a line's kind is not 1 to 15";
    case 7: return "the day's record goes on after its end";
    case 8: return "the pattern breaks off, or has something in it that is not a command";
    case 9: return "the pattern has more than 63 commands";
    case 10: return "the pattern breaks off before a command's kind, slot or counts";
    case 11: return "the pattern has a kind that is not 1 to 15, or a slot that is not 0 to 3";
    case 12: return "the pattern compares a boat with that of a slot, but no keep around it keeps a boat there";
    case 13: return "the pattern has more than three keeps inside each other";
    case 14: return "the pattern goes on after it is complete";
    case 15: return "a place that is asked about is not in the day's record";
    case 16: return "the search would be too large: the day has too many places and boats for so long a pattern with so many keeps inside each other";
    case 17: return "the work area is too small for this day and pattern";
    case 18: return "a line is named that the day's record does not have";
    case 19: return "the output is too short: for the chain that there is, or for the lengths asked for";
    case 20: return "the day's record is said to be longer than its buffer";
    case 21: return "the sail number is not below 16,777,216";
    case 22: return "the day's record has more than 4,096 lines, or is full with that many";
    case 23: return "the buffer has no room for the day's record after this";
    case 24: return "the pattern has a count of rounds whose lowest is above its highest, or whose highest is above 20";
    case 25: return "the pattern is too long: with its rounds written out it has more than 63 commands";
    case 26: return "the work area holds no search, or not one as a begin and its moves left it";
    case 27: return "a window does not open before it closes, or closes after 86,400, the end of the day";
    case 28: return "a line's time is not below 86,400, the seconds of a day";
    default: return "this number is not that of a refusal";
    }
}

/* ---- The functions */

/*
 * The library's version: major * 1,000,000 + minor * 1,000 + patch. It is CHAINS_VERSION where header and library belong together.
 * No refusals: the whole reply is the version.
 */
uint64_t chains_version(void);

/*
 * Begins a record of so many places, with no lines.
 *
 * Value: 4, the record's length.
 * Refusals: 2, 23, in this order.
 * buf: its first four bytes are written; all other bytes stay. A refusal leaves it untouched.
 */
uint64_t chains_begin(uint8_t *buf, size_t buf_len, uint16_t places);

/*
 * Adds a line without a time to the record that is the first len bytes of the buffer. Class 0 with sail number 0 says that the number was
 * not read.
 *
 * Value: the record's new length, len + 10.
 * Refusals: 20, then those of a record, 5 and 6 of the new line, 21, 22, 23, in this order.
 * buf: the line's ten bytes are written from the old end byte (at len - 1) on, and a new end byte after them; all other bytes
 * stay. A refusal leaves it untouched.
 */
uint64_t chains_add(uint8_t *buf, size_t buf_len, size_t len, uint16_t from, uint8_t kind, uint8_t class_, uint32_t sail,
                    uint16_t to);

/*
 * Adds a line with a time, in seconds since midnight, as chains_add adds one without.
 *
 * Value: the record's new length, len + 14.
 * Refusals: 20, then those of a record, 5, 6 and 28 of the new line, 21, 22, 23, in this order.
 * buf: the line's fourteen bytes are written from the old end byte (at len - 1) on, and a new end byte after them; all other bytes
 * stay. A refusal leaves it untouched.
 */
uint64_t chains_add_timed(uint8_t *buf, size_t buf_len, size_t len, uint16_t from, uint8_t kind, uint8_t class_, uint32_t sail,
                          uint16_t to, uint32_t time);

/*
 * Reads a line back. Lines are numbered from 0.
 *
 * Value: 5 of a line without a time, 6 of one with a time; or 0 where fields_len is below that, which is no refusal.
 * Refusals: those of the whole record, then 18. They come before the count of fields is looked at.
 * rec: only read. fields: from, kind, class, sail number, to are written to the first five words, and a time to the sixth; all other words
 * stay, the sixth too where there is no time. A value of 0 and a refusal leave it untouched.
 */
uint64_t chains_read(const uint8_t *rec, size_t rec_len, uint16_t line, uint32_t *fields, size_t fields_len);

/*
 * Reads a pattern: how many commands it has, how deep its keeps are nested at most, and its unfolded count.
 *
 * Value: 3; or 2 where counts_len is 2; or 0 where it is below 2, which is no refusal.
 * Refusals: those of a pattern. They come before the count of words is looked at.
 * pat: only read. counts: commands (1 to 63), keeps (0 to 3) and the unfolded count (1 to 63) are written to the first three words, or
 * where there are two, commands and keeps to these; all other words stay. A value of 0 and a refusal leave it untouched.
 */
uint64_t chains_pattern(const uint8_t *pat, size_t pat_len, uint32_t *counts, size_t counts_len);

/*
 * Counts the different boats of a record, and with them the reads: for each line the earlier ones are read from line 0 on, up to the first
 * with the same class and sail number, that one too, or all of them where none has the same. A line with an unread number meets the first
 * such line.
 *
 * Value: 2; or 0 where counts_len is below 2, which is no refusal.
 * Refusals: those of a record. They come before the count of words is looked at.
 * rec: only read. counts: the different boats (0 to 4,096) and the reads (0 to 8,386,560) are written to the first two words; all other
 * words stay. A value of 0 and a refusal leave it untouched.
 */
uint64_t chains_boats(const uint8_t *rec, size_t rec_len, uint32_t *counts, size_t counts_len);

/*
 * How many words of 32 bits chains_check, chains_find and chains_starts need as their work area, for this record and this pattern, with
 * options and without.
 *
 * Value: the words, 8,200 to 4,202,496.
 * Refusals: those of a record and a pattern, then 16.
 * rec, pat: only read.
 */
uint64_t chains_words(const uint8_t *rec, size_t rec_len, const uint8_t *pat, size_t pat_len);

/*
 * Does the chain lead from the first place to the second, and does the pattern accept it? The chain is a list, of any length, of
 * numbers of lines.
 *
 * Value: 1 for yes, 0 for no.
 * Refusals: those of a record and a pattern, then 15 to 18. All entries of the chain are asked about (18) before yes or no.
 * rec, pat, chain: only read. work: may hold anything before. After yes, no and 18 all of it is zeros, also what lies past the words that
 * are needed; every other refusal leaves it untouched.
 */
uint64_t chains_check(const uint8_t *rec, size_t rec_len, const uint8_t *pat, size_t pat_len, uint16_t from, uint16_t to,
                      const uint16_t *chain, size_t chain_len, uint32_t *work, size_t work_len);

/*
 * As chains_check, with a window of the day for each kind: no also where a line of the chain is outside the window of its kind.
 *
 * Value: 1 for yes, 0 for no.
 * Refusals: those of a record and a pattern, then 15, 27, 16, 17, 18. All lines of the record can be named, those outside too.
 * rec, pat, chain, options: only read. work: as with chains_check.
 */
uint64_t chains_check_with(const uint8_t *rec, size_t rec_len, const uint8_t *pat, size_t pat_len, uint16_t from, uint16_t to,
                           const uint16_t *chain, size_t chain_len, const uint32_t *options, size_t options_len, uint32_t *work,
                           size_t work_len);

/*
 * Finds the shortest accepted chain from the first place to the second; of several, the one with the lower line number at the
 * first difference.
 *
 * Value: the chain's length; or CHAINS_NO_CHAIN (4,294,967,295) where no chain, of any length, is accepted.
 * Refusals: those of a record and a pattern, then 15 to 17, then 19, whose value is the shortest length: lend so many entries and ask again.
 * rec, pat: only read. work: as with chains_check; it is zeros after 19. out: the chain is written at its front when found; the
 * rest of it, and all of it after none and after a refusal, is untouched.
 */
uint64_t chains_find(const uint8_t *rec, size_t rec_len, const uint8_t *pat, size_t pat_len, uint16_t from, uint16_t to,
                     uint32_t *work, size_t work_len, uint16_t *out, size_t out_len);

/*
 * As chains_find, with a window of the day for each kind: the chain has no line that is outside the window of its kind.
 *
 * Value: as with chains_find.
 * Refusals: those of a record and a pattern, then 15, 27, 16, 17, then 19, whose value is the shortest length.
 * rec, pat, options: only read. work, out: as with chains_find.
 */
uint64_t chains_find_with(const uint8_t *rec, size_t rec_len, const uint8_t *pat, size_t pat_len, uint16_t from, uint16_t to,
                          const uint32_t *options, size_t options_len, uint32_t *work, size_t work_len, uint16_t *out, size_t out_len);

/*
 * The shortest lengths from many places to one, out of one search: for each place of the list what chains_find would say of it, with an
 * output that is long enough. The list may have any length, and a place may stand in it more than once.
 *
 * Value: how many lengths were written, starts_len; where that is above 4,294,967,295, this number.
 * Refusals: those of a record and a pattern, then 15 to 17, then 19, where lengths_len is below starts_len. 15 asks about every place of
 * the list and about `to`. 19 comes before the search, and its value is starts_len; where that is above 4,294,967,295, this number.
 * rec, pat, starts: only read. work: may hold anything before. After a value and after 19 all of it is zeros, also what lies past the
 * words that are needed; every other refusal leaves it untouched. lengths: at its front is written, for each place in the list's order,
 * the length of the shortest accepted chain from it, or CHAINS_NO_CHAIN (4,294,967,295) where no chain, of any length, is accepted; the
 * rest of it, and all of it after a refusal, is untouched. A list of no places is asked about as any other, and no length is written.
 */
uint64_t chains_starts(const uint8_t *rec, size_t rec_len, const uint8_t *pat, size_t pat_len, const uint16_t *starts, size_t starts_len,
                       uint16_t to, uint32_t *work, size_t work_len, uint32_t *lengths, size_t lengths_len);

/*
 * As chains_starts, with a window of the day for each kind: for each place of the list what chains_find_with would say of it.
 *
 * Value: as with chains_starts.
 * Refusals: those of a record and a pattern, then 15, 27, 16, 17, then 19 as with chains_starts.
 * rec, pat, starts, options: only read. work, lengths: as with chains_starts.
 */
uint64_t chains_starts_with(const uint8_t *rec, size_t rec_len, const uint8_t *pat, size_t pat_len, const uint16_t *starts,
                            size_t starts_len, uint16_t to, const uint32_t *options, size_t options_len, uint32_t *work, size_t work_len,
                            uint32_t *lengths, size_t lengths_len);

/*
 * How many words of 32 bits chains_search_begin needs as its work area, for this record and this pattern, with options and without: three
 * for each line of the record more than chains_words says.
 *
 * Value: the words, 8,200 to 4,214,784.
 * Refusals: those of a record and a pattern, then 16.
 * rec, pat: only read.
 */
uint64_t chains_search_words(const uint8_t *rec, size_t rec_len, const uint8_t *pat, size_t pat_len);

/*
 * Begins a search for the shortest accepted chain from the first place to the second, and takes up no state of it.
 *
 * Value: 0.
 * Refusals: those of a record and a pattern, then 15 to 17, which asks here for the words that chains_search_words says.
 * rec, pat: only read, and not looked at again by moves and finish. work: may hold anything before. It holds the search afterwards, and
 * its first word is not 0; a refusal leaves it untouched.
 */
uint64_t chains_search_begin(const uint8_t *rec, size_t rec_len, const uint8_t *pat, size_t pat_len, uint16_t from, uint16_t to,
                             uint32_t *work, size_t work_len);

/*
 * As chains_search_begin, with a window of the day for each kind: the search is for the chain that chains_find_with finds. The windows are in
 * the area then, and chains_search_move and chains_search_finish go by them.
 *
 * Value: 0.
 * Refusals: those of a record and a pattern, then 15, 27, 16, 17, which asks for the words that chains_search_words says.
 * rec, pat, options: only read, and not looked at again by moves and finish. work: as with chains_search_begin.
 */
uint64_t chains_search_begin_with(const uint8_t *rec, size_t rec_len, const uint8_t *pat, size_t pat_len, uint16_t from, uint16_t to,
                                  const uint32_t *options, size_t options_len, uint32_t *work, size_t work_len);

/*
 * Moves a search on: takes up so many states of it, or all that remain where those are fewer. 2 * search size + 2 moves of at least 1
 * reach the end; a move there takes up none and changes nothing, as does a move of 0.
 *
 * Value: how many states were taken up.
 * Refusals: 26, where the area is empty, where its first word is 0, and where it is seen not to be as a begin and its moves left it.
 * work: holds the search as it stands then; 26 leaves it untouched.
 */
uint64_t chains_search_move(uint32_t *work, size_t work_len, size_t amount);

/*
 * Finishes a search: takes up all that remains, and replies as chains_find, or chains_find_with, does for the record, the pattern and the
 * windows at the beginning.
 *
 * Value: as with chains_find.
 * Refusals: 26 as with chains_search_move, then 19, whose value is the shortest length. A chain has fewer lines than the search size, so
 * an output of so many entries is never too short.
 * work: all of it is zeros after found, after none and after 19, so that the search is over: a second finish gets 26, and where an output
 * was too short the search must be begun again. out: the chain is written at its front when found; the rest of it, and all of it after
 * none and after a refusal, is untouched. 26 leaves both untouched.
 */
uint64_t chains_search_finish(uint32_t *work, size_t work_len, uint16_t *out, size_t out_len);

#ifdef __cplusplus
}
#endif

#endif
