/* Prints what the helpers of space.h give, a line for each input, and what the space says of each word and each set.
   tests/reference/src/bin/reference_header.rs prints the same lines without the header. C11 and C++11. */
#include "space.h"
#include <stdio.h>

typedef unsigned long long number;

static uint64_t space[SPACE_WORDS];

/* A put and a take of one word, under a set, by party 0, which holds every name. */
static uint32_t put_under(uint64_t set, uint64_t word) { return space_put(space, SPACE_WORDS, 0, set, 0, set, 0, &word, 1); }

static uint32_t take_under(uint64_t set, uint64_t word)
{
    uint64_t result[SPACE_MOST_FIELDS];
    return space_take(space, SPACE_WORDS, 0, set, 0, &word, 1, result, SPACE_MOST_FIELDS);
}

static uint32_t put(uint64_t word) { return put_under(space_set(0), word); }
static uint32_t take(uint64_t word) { return take_under(space_set(0), word); }

/* The word, or that it is bad; and what a put of it answers, and a take with it as template. */
static void show_word(uint64_t word)
{
    uint32_t of_put = put(word);
    uint32_t of_take = take(word);
    if (space_kind(word) == SPACE_KIND_BAD) printf("bad");
    else printf("word %llu", (number)word);
    printf(", put %u, take %u\n", (unsigned)of_put, (unsigned)of_take);
}

/* A number as message and as each bound. */
static void show_message(uint64_t message)
{
    printf("message %llu: ", (number)message);
    show_word(space_message(message));
    printf("at least %llu: ", (number)message);
    show_word(space_at_least(message));
    printf("at most %llu: ", (number)message);
    show_word(space_at_most(message));
}

/* What a take by this bound answers while this field is there, and whether the field is left. */
static void show_take(uint64_t field, const char *what, uint32_t message, uint64_t bound)
{
    uint32_t of_put = put(field);
    uint32_t of_bound = take(bound);
    uint32_t left = take(SPACE_WILDCARD);
    printf("of word %llu, put %u, %s %u: take %u, left %u\n", (number)field, (unsigned)of_put, what, (unsigned)message, (unsigned)of_bound,
           (unsigned)left);
}

static void show_bounds(uint64_t field, uint32_t message)
{
    show_take(field, "at least", message, space_at_least(message));
    show_take(field, "at most", message, space_at_most(message));
}

/* Every bound against every message of some, and against names that are as low. */
static void show_takes_by_bounds(void)
{
    const uint32_t messages[8] = {0, 1, 62, 63, INT32_MAX, UINT32_C(1) << 31, UINT32_MAX - 1, UINT32_MAX};
    for (int i = 0; i < 8; i++) {
        for (int j = 0; j < 8; j++) show_bounds(space_message(messages[j]), messages[i]);
        show_bounds(space_partition(0), messages[i]);
        show_bounds(space_partition(SPACE_LAST_PARTITION), messages[i]);
        show_bounds(space_key(-SPACE_LAST_KEY), messages[i]);
        show_bounds(space_key(SPACE_LAST_KEY), messages[i]);
    }
}

static void show_partition(uint32_t partition)
{
    printf("partition %u: ", (unsigned)partition);
    show_word(space_partition(partition));
}

static void show_key(int32_t key)
{
    printf("key %d: ", (int)key);
    show_word(space_key(key));
}

/* The set, and what a put and a take under it answer. */
static void show_set(uint64_t set)
{
    uint32_t of_put = put_under(set, 7);
    uint32_t of_take = take_under(set, 7);
    printf("set %llu, put %u, take %u\n", (number)set, (unsigned)of_put, (unsigned)of_take);
}

static void show_set_of(uint32_t partition)
{
    printf("of %u: ", (unsigned)partition);
    show_set(space_set(partition));
}

static void show_join(uint64_t set, uint64_t other)
{
    printf("%llu with %llu: ", (number)set, (number)other);
    show_set(space_join(set, other));
}

static uint64_t some_word(uint64_t *state)
{
    *state ^= *state << 13;
    *state ^= *state >> 7;
    *state ^= *state << 17;
    return *state;
}

/* The set of every partition and of some that there aren't, joins of two and of more, and with the empty set. */
static void show_sets(void)
{
    uint64_t state = 362436069, all = space_set(0);
    for (uint32_t partition = 0; partition <= 70; partition++) show_set_of(partition);
    for (uint32_t bit = 7; bit < 32; bit++) show_set_of(UINT32_C(1) << bit);
    show_set_of(UINT32_MAX);
    for (uint32_t partition = 1; partition <= SPACE_LAST_PARTITION; partition++) {
        show_join(all, space_set(partition));
        all = space_join(all, space_set(partition));
    }
    for (int i = 0; i < 200; i++) {
        uint64_t set = some_word(&state);
        uint64_t other = some_word(&state);
        uint64_t few = set & other & some_word(&state);
        show_join(set, other);
        show_join(few, other);
        show_join(few, few);
        show_join(0, set);
        show_join(set, 0);
    }
    show_join(0, 0);
    show_join(UINT64_MAX, 1);
}

static void show_kind(uint64_t word)
{
    printf("of word %llu: kind %u, value %lld\n", (number)word, (unsigned)space_kind(word), (long long)space_value(word));
}

static void show_roster(const uint64_t *roster)
{
    for (int i = 0; i < SPACE_ROSTER_WORDS; i++)
        if (roster[i]) printf(" %d:%llu", i, (number)roster[i]);
    printf("\n");
}

static void show_gifts(uint32_t party, uint32_t partition, int32_t key)
{
    uint64_t roster[SPACE_ROSTER_WORDS] = {0};
    int given = space_give_partition(roster, party, partition);
    printf("party %u, partition %u: given %d,", (unsigned)party, (unsigned)partition, given);
    show_roster(roster);
    given = space_give_key(roster, party, key);
    printf("party %u, then key %d: given %d,", (unsigned)party, (int)key, given);
    show_roster(roster);
}

static void show_answer(uint32_t answer)
{
    printf("answer %u: refusal %u, %s\n", (unsigned)answer, (unsigned)space_refusal(answer), space_meaning(answer));
}

/* The word of each pair of parties that there are or aren't. */
static void show_pairs(void)
{
    const uint32_t parties[6] = {0, 1, 7, 8, UINT32_C(1) << 31, UINT32_MAX};
    for (int i = 0; i < 6; i++)
        for (int j = 0; j < 6; j++)
            printf("space_before %u %u %llu\n", (unsigned)parties[i], (unsigned)parties[j], (number)space_before(parties[i], parties[j]));
}

/* All names for party 0, one partition and one key more for each party, and what open makes of it. */
static void open_for_all(void)
{
    uint64_t roster[SPACE_ROSTER_WORDS] = {0};
    for (uint32_t partition = 0; partition <= SPACE_LAST_PARTITION; partition++) space_give_partition(roster, 0, partition);
    for (int32_t key = -SPACE_LAST_KEY; key <= SPACE_LAST_KEY; key++) space_give_key(roster, 0, key);
    for (uint32_t party = 1; party < SPACE_PARTIES; party++) {
        space_give_partition(roster, party, 8 * party);
        space_give_key(roster, party, 4 * (int32_t)party - 16);
    }
    printf("the roster:");
    show_roster(roster);
    printf("open %u, the holdings:", (unsigned)space_open(space, SPACE_WORDS, roster, SPACE_ROSTER_WORDS));
    show_roster(space + 1);
}

int main(void)
{
    uint64_t state = 88172645463325252u;
    printf("words %d, roster %d, of a file %d, fields %d, parties %d, live entries %d, partitions to %d, keys to %d, the wildcard %llu\n",
           SPACE_WORDS, SPACE_ROSTER_WORDS, SPACE_ROSTER_FILE_BYTES, SPACE_MOST_FIELDS, SPACE_PARTIES, SPACE_SHARE, SPACE_LAST_PARTITION,
           SPACE_LAST_KEY, (number)SPACE_WILDCARD);
    printf("kinds %d %d %d %d %d %d, bad %u\n", SPACE_KIND_MESSAGE, SPACE_KIND_PARTITION, SPACE_KIND_KEY, SPACE_KIND_WILDCARD,
           SPACE_KIND_AT_LEAST, SPACE_KIND_AT_MOST, (unsigned)SPACE_KIND_BAD);
    open_for_all();
    printf("the wildcard: ");
    show_word(SPACE_WILDCARD);
    for (uint32_t bit = 0; bit < 64; bit++) {
        show_message((UINT64_C(1) << bit) - 1);
        show_message(UINT64_C(1) << bit);
    }
    show_message(UINT64_MAX);
    for (uint32_t partition = 0; partition <= 70; partition++) show_partition(partition);
    for (uint32_t bit = 7; bit < 32; bit++) show_partition(UINT32_C(1) << bit);
    show_partition(UINT32_MAX);
    for (int32_t key = -70; key <= 70; key++) show_key(key);
    for (int32_t step = 0; step <= 70; step++) {
        show_key(INT32_MIN + step);
        show_key(INT32_MAX - step);
    }
    show_sets();
    show_takes_by_bounds();
    for (uint64_t kind = 0; kind <= 7; kind++) {
        for (uint64_t value = 0; value <= 70; value++) show_kind(kind * 4294967296u + value);
        for (uint32_t bit = 7; bit < 32; bit++) show_kind(kind * 4294967296u + (UINT64_C(1) << bit));
        show_kind(kind * 4294967296u + UINT32_MAX);
    }
    for (uint32_t bit = 35; bit < 64; bit++) show_kind(UINT64_C(1) << bit);
    show_kind(UINT64_MAX);
    for (int i = 0; i < 200; i++) {
        show_kind(some_word(&state));
        show_kind(some_word(&state) % (7 * UINT64_C(4294967296)));
    }
    for (uint32_t party = 0; party <= 9; party++)
        for (int32_t at = 0; at <= 66; at += 1 + (int32_t)party) show_gifts(party, (uint32_t)at, at - 33);
    show_gifts(UINT32_MAX, 0, 0);
    show_gifts(7, UINT32_MAX, INT32_MAX);
    show_gifts(7, UINT32_C(1) << 31, INT32_MIN);
    for (uint32_t answer = 0; answer <= 120; answer++) show_answer(answer);
    show_answer(UINT32_MAX);
    show_pairs();
    printf("SPACE_MOST_PAIRS %d\n", SPACE_MOST_PAIRS);
    return 0;
}
