// The header from C++: it compiles with every warning, and the functions are linked by their C names.
//
//     g++ -std=c++11 -Wall -Wextra -Werror -pedantic -Iinclude tests/c/header_test.cpp target/libchains.a -o target/header_test
//     target/header_test
#include "chains.h"

#include <cstdio>
#include <cstring>

int main()
{
    uint8_t record[4];
    uint8_t timed[18];
    uint32_t fields[CHAINS_TIMED_FIELDS];
    uint32_t options[2] = {0, 5};
    uint8_t pattern[1] = {0x20};
    uint8_t rounds[4] = {0x2A, 0, 3, 0x20};
    uint32_t counts[CHAINS_COUNTS];
    uint32_t boats[CHAINS_BOATS_COUNTS] = {9, 9};
    static uint32_t work[8203];
    uint16_t chain[1] = {9};
    uint16_t starts[2] = {0, 0};
    uint32_t lengths[2] = {9, 9};
    size_t length = 0, words = 0, count = 9;
    bool holds = chains_version() == CHAINS_VERSION;
    holds = holds && chains_length(chains_begin(record, sizeof record, 1), &length) && length == 4;
    holds = holds && chains_written(chains_boats(record, length, boats, CHAINS_BOATS_COUNTS)) && boats[CHAINS_BOATS_DIFFERENT] == 0 &&
            boats[CHAINS_BOATS_READS] == 0;
    holds = holds && chains_needed(chains_words(record, length, pattern, 1), &words) && words == 8200;
    holds = holds && chains_needed(chains_search_words(record, length, pattern, 1), &words) && words == 8200;
    holds = holds && chains_too_long(chains_starts(record, length, pattern, 1, starts, 2, 0, work, words, lengths, 1), &count) &&
            count == 2 && lengths[0] == 9;
    holds = holds && chains_lengths(chains_starts(record, length, pattern, 1, starts, 1, 0, work, words, lengths, 2), &count) &&
            count == 1 && lengths[0] == 0 && lengths[1] == 9;
    holds = holds && chains_begun(chains_search_begin(record, length, pattern, 1, 0, 0, work, words));
    holds = holds && chains_moved(chains_search_move(work, words, 1), &count) && count == 0;
    holds = holds && chains_found(chains_search_finish(work, words, chain, 1), &length) && length == 0 && chain[0] == 9;
    holds = holds && chains_number(chains_search_finish(work, words, chain, 1)) == CHAINS_NO_SEARCH;
    holds = holds && chains_written(chains_pattern(pattern, 1, counts, CHAINS_COUNTS)) && counts[CHAINS_COUNT_COMMANDS] == 1;
    holds = holds && chains_written(chains_pattern(rounds, 4, counts, CHAINS_COUNTS)) && counts[CHAINS_COUNT_UNFOLDED] == 4;
    holds = holds && std::strcmp(chains_message(chains_number(chains_begin(record, sizeof record, 0))), chains_message(2)) == 0;
    const uint8_t line[2] = {0x21, 1};
    holds = holds && chains_length(chains_begin(timed, sizeof timed, 1), &length) &&
            chains_length(chains_add_timed(timed, sizeof timed, length, 0, 1, 1, 1, 0, 5), &length) && length == 18;
    holds = holds && chains_timed(chains_read(timed, length, 0, fields, CHAINS_TIMED_FIELDS)) && fields[CHAINS_FIELD_TIME] == 5;
    chain[0] = 0;
    holds = holds && chains_yes(chains_check(timed, length, line, 2, 0, 0, chain, 1, work, 8200));
    holds = holds && chains_no(chains_check_with(timed, length, line, 2, 0, 0, chain, 1, options, 2, work, 8200));
    holds = holds && chains_none(chains_find_with(timed, length, line, 2, 0, 0, options, 2, work, 8200, chain, 1));
    holds = holds && chains_lengths(chains_starts_with(timed, length, line, 2, starts, 1, 0, options, 2, work, 8200, lengths, 2), &count) &&
            count == 1 && lengths[0] == CHAINS_NO_CHAIN;
    options[0] = 5;
    holds = holds && chains_number(chains_search_begin_with(timed, length, line, 2, 0, 0, options, 2, work, 8203)) == CHAINS_WINDOW_OUT_OF_RANGE;
    options[1] = CHAINS_DAY;
    holds = holds && chains_begun(chains_search_begin_with(timed, length, line, 2, 0, 0, options, 2, work, 8203)) &&
            chains_found(chains_search_finish(work, 8203, chain, 1), &count) && count == 1 && CHAINS_OPTIONS == 30;
    std::puts(holds ? "the header serves C++" : "fails: the header from C++");
    return holds ? 0 : 1;
}
