/* Calls at random: most of them sensible, so that tables fill and templates match, and some wrong in each way that there is. */
#ifndef CALLS_H
#define CALLS_H
#include "random.h"
#include "words.h"

enum kind { OPEN, PUT, LOOK, RECEIVE, TAKE, KINDS };

struct call {
    enum kind kind;
    uint32_t party;
    uint64_t set[2];
    int32_t key[2];
    uint64_t space_len, count, room;
    uint64_t list[18]; /* the roster, or the fields */
};

/* what is given to each party: all of the few partitions and keys that the calls name, but for parties 4 to 7, which lack some; 4 and 5
   lack partition 0, and 6 and 7 get key 0 by the opening alone */
static const uint8_t usual_partitions[4] = {0, 5, 40, 63};
#define ALL_USUAL (1ull | 1ull << 5 | 1ull << 40 | 1ull << 63)
#define KEYS_3_TO_2 (63ull << 28) /* keys -3 to 2 */
static const uint64_t usual_roster[ROSTER] = {ALL_USUAL, ALL_USUAL, ALL_USUAL, ALL_USUAL, ALL_USUAL & ~1ull, 1ull << 5, 1ull | 1ull << 63, 1,
                                              KEYS_3_TO_2, KEYS_3_TO_2, KEYS_3_TO_2, KEYS_3_TO_2, KEYS_3_TO_2,
                                              7ull << 30, 3ull << 29, 0};

/* The order of evaluation is left open within an expression of C, so no expression here has two numbers whose order matters. */

/* a word at the edges of the kinds' ranges */
static inline uint64_t edge(void)
{
    uint64_t kind = below(8);
    return kind << 32 | below(80);
}

/* a bound at a number, just below or just above it, or at the end of the range, or anywhere */
static inline uint64_t a_bound(uint32_t number)
{
    uint64_t kind = seldom(2) ? AT_LEAST : AT_MOST;
    uint32_t at = below(16);
    if (at == 0) return kind;
    if (at == 1) return kind + UINT32_MAX;
    if (at == 2) return kind + (uint32_t)any64();
    return kind + (number + below(3) - 1);
}

static inline uint32_t a_partition(void) { return usual_partitions[below(4)]; }

/* a set of one usual partition or of some; seldom of others too, or of all, or the empty one */
static inline uint64_t a_set(void)
{
    uint32_t at = below(300);
    uint64_t one = set_of(a_partition());
    uint64_t other = set_of(a_partition());
    uint64_t any = any64();
    if (at == 0) return 0;
    if (at == 1) return any;
    if (at == 2) return UINT64_MAX;
    if (at < 6) return one | set_of(any % 64);
    if (at < 90) return one | other;
    if (at < 120) return one | (any & ALL_USUAL);
    return one;
}

/* one partition of a set, or the empty set where that is it */
static inline uint64_t one_of(uint64_t set)
{
    uint32_t from = below(64);
    for (uint32_t i = 0; i < 64; i++)
        if (has(set, (from + i) % 64)) return set_of((from + i) % 64);
    return 0;
}

/* a set that mostly shares a partition with this one */
static inline uint64_t a_near_set(uint64_t set)
{
    uint32_t at = below(10);
    uint64_t one = one_of(set);
    uint64_t other = a_set();
    return at < 4 ? set : at < 6 ? one : at < 8 ? one | other : at < 9 ? other & ~set : other;
}

static inline uint64_t a_name(void) { return seldom(2) ? PARTITION_FIELD + a_partition() : KEY_FIELD + 28 + below(6); }

static inline uint64_t a_field(int in_template)
{
    uint32_t at = below(1000);
    if (at < 3) return any64(); /* bad, nearly always */
    if (at < 8) return edge();
    if (at < 10 || (in_template && at < 350)) return WILDCARD;
    if (at < 12 || (in_template && at < 450)) return a_bound(below(3));
    if (at < 850) return below(3);
    if (at < 870) return UINT32_MAX;
    if (at < 880) return (uint32_t)any64();
    return a_name();
}

/* where in a row the pair is that a look, a receive or a take goes by */
static inline uint32_t pair_of(const struct call *c) { return c->kind == TAKE ? TAKE_SET : READ_SET; }

/* one of the three, a take every second time */
static inline enum kind a_seek(void) { return seldom(2) ? TAKE : seldom(2) ? LOOK : RECEIVE; }

/* A template that a live row matches, now and then with another set, with a wildcard for a field, or with a bound, by which it may
   just fail. */
static inline void a_match(struct call *c, const uint64_t *space)
{
    const uint64_t *row = space + row_at(below((uint32_t)space[0]));
    uint32_t pair = pair_of(c);
    c->set[0] = a_near_set(row[pair]);
    c->key[0] = 31 - (int32_t)row[pair + 1];
    c->count = row[COUNT];
    for (uint32_t i = 0; i < MOST_FIELDS; i++) {
        uint32_t at = below(9), exact = row[FIELDS + i] >> 32 ? 1 : 5; /* names seldom: who lacks one is refused */
        c->list[i] = at < exact ? row[FIELDS + i] : at < 8 ? WILDCARD : a_bound((uint32_t)row[FIELDS + i]);
    }
}

/* Lengths that need more than 32 bits, most of them with the right number in the lower half. */
static inline uint64_t lengthened(uint64_t length)
{
    uint64_t lower = below(4) ? length : below(20);
    uint64_t upper = 1 + below(9);
    return lower | upper << (32 + below(28));
}

/* The usual one and more; here and there without partition 0, or without any partition. */
static inline void a_roster(struct call *c)
{
    c->count = seldom(8) ? below(18) : seldom(8) ? lengthened(ROSTER) : ROSTER;
    for (uint32_t i = 0; i < 18; i++) c->list[i] = usual_roster[i % ROSTER] | (any64() & any64() & ~(1ull << 63));
    for (uint32_t party = 0; party < PARTIES; party++)
        if (seldom(4)) c->list[party] = seldom(4) ? 0 : c->list[party] & ~set_of(0);
    if (seldom(4)) c->list[below(ROSTER)] |= 1ull << 63;
}

/* Under a partition that the party holds. */
static inline void with_held_sets(struct call *c, const uint64_t *space)
{
    if (c->party < PARTIES) c->set[0] = c->set[1] = one_of(space[PARTITIONS_AT + c->party]);
}

/* A put that its party is allowed. */
static inline void a_plain_put(struct call *c, const uint64_t *space)
{
    with_held_sets(c, space);
    c->key[0] = c->key[1] = 0;
    for (uint32_t i = 0; i < MOST_FIELDS; i++) c->list[i] = below(3);
}

/* A result that is too short; every second time with a set that is held and a name in a field, which the party may lack. */
static inline void a_short_result(struct call *c, const uint64_t *space)
{
    uint32_t count = (uint32_t)c->count;
    if (seldom(2)) {
        with_held_sets(c, space);
        c->list[below(count)] = a_name();
    }
    c->room = below(count);
}

static inline void a_call(struct call *c, const uint64_t *space, uint32_t percent_puts)
{
    uint32_t at = below(1000);
    int some_rows = space[0] - 1 < ROWS, names_alone = seldom(30);
    c->kind = at < 5 ? OPEN : at < 10 * percent_puts ? PUT : a_seek();
    c->party = seldom(200) ? (uint32_t)any64() : below(PARTIES);
    for (uint32_t i = 0; i < 2; i++) {
        c->set[i] = a_set();
        c->key[i] = seldom(300) ? (seldom(2) ? (int32_t)below(70) - 35 : (int32_t)any64()) : (int32_t)below(5) - 2;
    }
    c->space_len = !seldom(250) ? WORDS : seldom(2) ? WORDS - 1 : below(WORDS);
    c->count = seldom(60) ? below(12) : below(3) ? 1 + below(2) : 1 + below(MOST_FIELDS);
    c->room = seldom(30) ? below(MOST_FIELDS) : MOST_FIELDS;
    if (c->kind == OPEN) a_roster(c);
    else for (uint32_t i = 0; i < 18; i++) c->list[i] = names_alone ? a_name() : a_field(c->kind != PUT);
    if (names_alone && seldom(2)) with_held_sets(c, space); /* several are lacked at once, and no set */
    if (c->kind == PUT && percent_puts > 90 && seldom(2)) a_plain_put(c, space);
    if (c->kind > PUT && some_rows && seldom(2)) a_match(c, space);
    if (c->kind > PUT && seldom(20)) a_short_result(c, space);
    if (seldom(200)) c->space_len = lengthened(c->space_len);
    if (seldom(100)) c->count = lengthened(c->count);
    if (seldom(100)) c->room = lengthened(c->room);
}
#endif
