/* The words of a space, as docs/RULES.md lays them out. */
#ifndef WORDS_H
#define WORDS_H
#include <stdint.h>

enum { WORDS = 1809, PARTIES = 8, ROWS = 128, ROW = 14, SHARE = 16, MOST_FIELDS = 8, ROSTER = 16 };
enum { PARTITIONS_AT = 1, KEYS_AT = 9, ROWS_AT = 17 };
enum { WRITER, READ_SET, READ_KEY, TAKE_SET, TAKE_KEY, COUNT, FIELDS };

#define PARTITION_FIELD (1ull << 32)
#define KEY_FIELD (2ull << 32)
#define WILDCARD (3ull << 32)
#define AT_LEAST (4ull << 32)
#define AT_MOST (5ull << 32)

static inline uint32_t row_at(uint32_t row) { return ROWS_AT + ROW * row; }
static inline uint64_t set_of(uint32_t partition) { return 1ull << partition; }
static inline int has(uint64_t set, uint32_t partition) { return set >> partition & 1; }
static inline int is_bound(uint64_t field) { return field >> 32 == 4 || field >> 32 == 5; }

/* Does an entry's field carry a name that the party doesn't hold? */
static inline int lacks(const uint64_t *space, uint32_t party, uint64_t field)
{
    uint64_t held = space[(field >> 32 == 1 ? PARTITIONS_AT : KEYS_AT) + party];
    return field >> 32 > 0 && !has(held, (uint32_t)field);
}

/* Do two sets share a partition? */
static inline int share(uint64_t set, uint64_t other) { return (set & other) != 0; }
#endif
