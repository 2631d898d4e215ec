/* The finder, the lengths from many places, the checker, the words needed and the count of boats by hand in C. Arguments, replies and what
   becomes of lent words are those of chains_find_with, chains_starts_with, chains_check_with, chains_words and chains_boats; without options,
   which may be null then, every window is the whole day. The count of states that phase one reached goes to *reached, unless that is null. */
#ifndef HAND_H
#define HAND_H

#include <stddef.h>
#include <stdint.h>

uint64_t hand_find(const uint8_t *rec, size_t rec_len, const uint8_t *pat, size_t pat_len, uint16_t from, uint16_t to,
                   const uint32_t *options, size_t options_len, uint32_t *work, size_t work_len, uint16_t *out, size_t out_len,
                   uint32_t *reached);

/* The same with the second index: see hand.c. */
uint64_t hand_find_grouped(const uint8_t *rec, size_t rec_len, const uint8_t *pat, size_t pat_len, uint16_t from, uint16_t to,
                           const uint32_t *options, size_t options_len, uint32_t *work, size_t work_len, uint16_t *out, size_t out_len,
                           uint32_t *reached);

uint64_t hand_starts(const uint8_t *rec, size_t rec_len, const uint8_t *pat, size_t pat_len, const uint16_t *starts, size_t starts_len,
                     uint16_t to, const uint32_t *options, size_t options_len, uint32_t *work, size_t work_len, uint32_t *lengths,
                     size_t lengths_len, uint32_t *reached);

uint64_t hand_starts_grouped(const uint8_t *rec, size_t rec_len, const uint8_t *pat, size_t pat_len, const uint16_t *starts,
                             size_t starts_len, uint16_t to, const uint32_t *options, size_t options_len, uint32_t *work,
                             size_t work_len, uint32_t *lengths, size_t lengths_len, uint32_t *reached);

uint64_t hand_check(const uint8_t *rec, size_t rec_len, const uint8_t *pat, size_t pat_len, uint16_t from, uint16_t to,
                    const uint16_t *chain, size_t chain_len, const uint32_t *options, size_t options_len, uint32_t *work,
                    size_t work_len);

uint64_t hand_words(const uint8_t *rec, size_t rec_len, const uint8_t *pat, size_t pat_len);

uint64_t hand_boats(const uint8_t *rec, size_t rec_len, uint32_t *counts, size_t counts_len);

#endif
