/* The shared space's calls in plain C, under names of their own: what the proved library is measured against.
   The partitions of a pair are a set, a bit for each. A lent slice is a pointer, never null and 8-aligned, and a length in words
   (the file: any alignment, and bytes); no two overlap.
   An answer: 0 is "done" of open, put and the reading of a roster, "none" of look, receive and take and "an order" of the start
   order; 1 to 8 is "found" with that count, or of the start order "a circle", on which the answer less 1 is the smallest party; 100
   plus its number is a refusal. A refused call, a "none" and a circle write nothing. */
#ifndef PLAIN_H
#define PLAIN_H
#include <stdint.h>

uint32_t plain_open(uint64_t *space, uint64_t space_len, const uint64_t *roster, uint64_t roster_len);
uint32_t plain_put(uint64_t *space, uint64_t space_len, uint32_t party,
                   uint64_t read_partitions, int32_t read_key, uint64_t take_partitions, int32_t take_key,
                   const uint64_t *fields, uint64_t field_count);
uint32_t plain_look(const uint64_t *space, uint64_t space_len, uint32_t party, uint64_t partitions, int32_t key,
                    const uint64_t *fields, uint64_t field_count, uint64_t *result, uint64_t result_len);
uint32_t plain_receive(uint64_t *space, uint64_t space_len, uint32_t party, uint64_t partitions, int32_t key,
                       const uint64_t *fields, uint64_t field_count, uint64_t *result, uint64_t result_len);
uint32_t plain_take(uint64_t *space, uint64_t space_len, uint32_t party, uint64_t partitions, int32_t key,
                    const uint64_t *fields, uint64_t field_count, uint64_t *result, uint64_t result_len);
uint32_t plain_read_roster(const uint8_t *file, uint64_t file_len, uint64_t *roster, uint64_t roster_len);
uint32_t plain_start_order(const uint64_t *pairs, uint64_t pair_count, uint64_t *result, uint64_t result_len);
#endif
