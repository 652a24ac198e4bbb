/* Pairs of runs on the machine that this runs on: a watched group makes the same calls in both, everybody else makes calls of
   their own that keep the premise (G7 of docs/RULES.md). The group's answers and fields, its live entries and its holdings must
   be the same in both, and no member may come to hold a name that is not the group's. Some groups aren't given partition 0: then the
   others may use it with any key. */
#include "calls.h"
#include "space.h"
#include <stdio.h>

#ifndef PAIRS
#define PAIRS 400
#endif
enum { STEPS = 90, MOST_OTHERS = 4 };

static uint64_t space[2][WORDS];
static uint32_t group;                      /* a bit for each member */
static uint64_t partitions, keys;           /* G4: the group's names */
static uint32_t compared, others_done, entries;
static uint32_t found[KINDS], others_found[KINDS], lacked[KINDS]; /* lacked: the group found a name that the member didn't hold */
static uint32_t found_by_bounds, others_found_by_bounds; /* templates with a bound */
static uint32_t found_by_several, others_found_by_several; /* templates with several partitions */
static uint32_t spared_by_key;  /* others' calls with a set that overlaps the group's names in part, out of the grasp by the key */
static uint32_t reached_by_one; /* others' pairs in the grasp by one of several partitions: such a call is made so that it is refused */

/* Where the group has no partition 0: pairs of runs; members' calls refused for it alone; others' calls under it, done or found, with a
   key by which the group would reach them if it had it: by whether it stands alone or in a set. */
static uint32_t pairs_without_0, refused_for_0, others_in_0[2][KINDS];

static int member(uint32_t party) { return party < PARTIES && group >> party & 1; }

/* The group is given of the first four, or of the three after 0, the others of all. */
static const uint8_t run_partitions[10] = {0, 1, 33, 63, 2, 5, 31, 32, 40, 62};

/* About three in four of the first partitions. */
static uint64_t most_of_first(uint32_t first)
{
    uint64_t set = 0;
    for (uint32_t i = 0; i < first; i++)
        if (!seldom(4)) set |= set_of(run_partitions[i]);
    return set;
}

/* One of the first, and every second time another one or two. */
static uint64_t a_run_set(uint32_t first)
{
    uint64_t set = set_of(run_partitions[below(first)]);
    for (uint32_t more = seldom(2) ? 1 + below(2) : 0; more > 0; more--) set |= set_of(run_partitions[below(first)]);
    return set;
}

/* How many partitions of a set are among the group's names? */
static uint32_t reached(uint64_t set)
{
    uint32_t of_group = 0;
    for (uint32_t i = 0; i < 10; i++) of_group += has(set, run_partitions[i]) && has(partitions, run_partitions[i]);
    return of_group;
}

static int co_key_held(int32_t key) { return has(keys, (uint32_t)(31 - key)); } /* keys are small here */

static int is_of_several(uint64_t set) { return (set & (set - 1)) != 0; }

/* G5, G6: the names include a partition of the set, and the co-key. */
static int in_grasp(const struct call *c)
{
    int grasped = 0;
    if (c->kind == LOOK || c->kind == RECEIVE) return 0; /* G7: these are free */
    for (uint32_t i = 0; i < (c->kind == PUT ? 2 : 1); i++) {
        if (reached(c->set[i]) && co_key_held(c->key[i])) grasped = 1;
        reached_by_one += reached(c->set[i]) == 1 && is_of_several(c->set[i]) && co_key_held(c->key[i]);
    }
    return grasped;
}

/* Of a call that isn't in the grasp and wasn't refused. */
static int only_by_key(const struct call *c)
{
    for (uint32_t i = 0; i < (c->kind == PUT ? 2 : 1); i++)
        if (c->kind != LOOK && c->kind != RECEIVE && reached(c->set[i]) && share(c->set[i], ~partitions)) return 1;
    return 0;
}

static int is_found(uint32_t answer) { return answer - 1 < MOST_FIELDS; }

static void count_in_0(const struct call *c, uint32_t answer)
{
    if (has(partitions, 0) || !(c->kind == PUT ? answer == 0 : is_found(answer))) return;
    for (uint32_t i = 0; i < (c->kind == PUT ? 2 : 1); i++)
        if (has(c->set[i], 0) && co_key_held(c->key[i])) others_in_0[is_of_several(c->set[i])][c->kind]++;
}

/* About three in four of the bits. */
static uint64_t most_of(uint64_t bits) { return bits & (any64() | any64()); }

/* Both openings give the members the same, of four partitions and keys -3 to 3, every second time without partition 0; what the others
   get, of more, differs. */
static void open_both(void)
{
    uint64_t roster[2][ROSTER], kept_from = seldom(2) ? set_of(0) : 0;
    group = 1 + below(254);
    partitions = 0, keys = 1ull << 31;
    for (uint32_t p = 0; p < PARTIES; p++)
        if (member(p)) {
            partitions |= roster[0][p] = roster[1][p] = most_of_first(4) & ~kept_from;
            keys |= roster[0][8 + p] = roster[1][8 + p] = most_of(0x7Full << 28);
        } else
            for (uint32_t run = 0; run < 2; run++) {
                roster[run][p] = most_of_first(10);
                roster[run][8 + p] = most_of(0x1FFFull << 25);
            }
    for (uint32_t run = 0; run < 2; run++) {
        for (uint32_t i = 0; i < WORDS; i++) space[run][i] = any64();
        space_open(space[run], WORDS, roster[run], ROSTER);
    }
    pairs_without_0 += !has(partitions, 0);
}

static uint32_t make(uint32_t run, const struct call *c, uint64_t *result)
{
    uint64_t *s = space[run];
    switch (c->kind) {
    case PUT: return space_put(s, WORDS, c->party, c->set[0], c->key[0], c->set[1], c->key[1], c->list, c->count);
    case LOOK: return space_look(s, WORDS, c->party, c->set[0], c->key[0], c->list, c->count, result, c->room);
    case RECEIVE: return space_receive(s, WORDS, c->party, c->set[0], c->key[0], c->list, c->count, result, c->room);
    default: return space_take(s, WORDS, c->party, c->set[0], c->key[0], c->list, c->count, result, c->room);
    }
}

/* A call that names sets of the first partitions, and keys from -most to most; a template has mostly wildcards and bounds. */
static void a_run_call(struct call *c, uint32_t first, int32_t most)
{
    c->kind = seldom(2) ? PUT : a_seek();
    for (uint32_t i = 0; i < 2; i++) {
        c->set[i] = a_run_set(first);
        c->key[i] = (int32_t)below(2 * (uint32_t)most + 1) - most;
    }
    c->count = seldom(40) ? below(10) : seldom(4) ? 2 : 1;
    c->room = seldom(40) ? below(2) : MOST_FIELDS;
    for (uint32_t i = 0; i < 10; i++) {
        uint64_t name = seldom(2) ? PARTITION_FIELD + run_partitions[below(first)]
                                  : KEY_FIELD + 31 - (uint32_t)most + below(2 * (uint32_t)most + 1);
        uint64_t bound = a_bound(below(3));
        c->list[i] = c->kind != PUT && below(4) ? (below(3) ? WILDCARD : bound) : below(4) ? below(3) : name;
    }
}

static int has_bound(const struct call *c)
{
    uint32_t i = 0;
    while (i < c->count && !is_bound(c->list[i])) i++;
    return i < c->count;
}

static uint32_t a_party(int inside)
{
    if (!inside && seldom(20)) return PARTIES + below(3);
    for (;;) {
        uint32_t p = below(PARTIES);
        if (member(p) == inside) return p;
    }
}

/* A call from elsewhere in one run. One that would break the premise is made in a form that is refused. */
static void other_call(uint32_t run)
{
    struct call c;
    uint64_t result[MOST_FIELDS];
    a_run_call(&c, 10, 6);
    c.party = a_party(0);
    for (uint32_t i = 0; i < 2 && !has(partitions, 0); i++)
        if (seldom(3)) c.set[i] = seldom(2) ? set_of(0) : c.set[i] | set_of(0);
    if (in_grasp(&c)) c.count = seldom(2) ? 0 : 9;
    uint32_t answer = make(run, &c, result);
    if (answer <= MOST_FIELDS) spared_by_key += only_by_key(&c);
    count_in_0(&c, answer);
    if (c.kind == PUT) others_done += answer == 0;
    else if (is_found(answer)) {
        others_found[c.kind]++, others_found_by_bounds += has_bound(&c);
        others_found_by_several += is_of_several(c.set[0]);
    }
}

static int only_0_lacked(const struct call *c, const uint64_t *had)
{
    uint64_t sets = c->kind == PUT ? c->set[0] | c->set[1] : c->set[0];
    return (sets & ~had[PARTITIONS_AT + c->party]) == set_of(0);
}

static int group_call(void)
{
    struct call c;
    uint64_t result[2][MOST_FIELDS], had[ROWS_AT];
    uint32_t answer[2], lacking = 0;
    a_run_call(&c, 4, 3);
    c.party = a_party(1);
    for (uint32_t i = 0; i < 2 && !has(partitions, 0); i++)
        if (has(c.set[i], 0) && below(4)) c.set[i] = set_of(run_partitions[1 + below(3)]);
    for (uint32_t i = 0; i < ROWS_AT; i++) had[i] = space[0][i];
    for (uint32_t run = 0; run < 2; run++) {
        for (uint32_t i = 0; i < MOST_FIELDS; i++) result[run][i] = any64();
        answer[run] = make(run, &c, result[run]);
    }
    compared++;
    if (answer[0] != answer[1]) return 0;
    refused_for_0 += !has(partitions, 0) && answer[0] == 113 && only_0_lacked(&c, had);
    if (c.kind == PUT || !is_found(answer[0])) return 1;
    found[c.kind]++, found_by_bounds += has_bound(&c), found_by_several += is_of_several(c.set[0]);
    for (uint32_t i = 0; i < answer[0]; i++) {
        if (result[0][i] != result[1][i]) return 0;
        lacking += lacks(had, c.party, result[0][i]);
    }
    lacked[c.kind] += lacking > 0;
    return 1;
}

/* the place of the next live entry of the group at or after a row; ROWS where there is none */
static uint32_t next_of_group(uint32_t run, uint32_t row)
{
    while (row < space[run][0] && !member((uint32_t)space[run][row_at(row) + WRITER])) row++;
    return row < space[run][0] ? row : ROWS;
}

/* G8, G9 */
static int same_after(void)
{
    for (uint32_t a = next_of_group(0, 0), b = next_of_group(1, 0);; a = next_of_group(0, a + 1), b = next_of_group(1, b + 1)) {
        if (a == ROWS || b == ROWS) {
            if (a != b) return 0;
            break;
        }
        entries++;
        for (uint32_t i = 0; i < ROW; i++)
            if (space[0][row_at(a) + i] != space[1][row_at(b) + i]) return 0;
    }
    for (uint32_t p = 0; p < PARTIES; p++)
        for (uint32_t run = 0; run < 2 && member(p); run++) {
            if (space[run][PARTITIONS_AT + p] != space[0][PARTITIONS_AT + p] || space[run][KEYS_AT + p] != space[0][KEYS_AT + p]) return 0;
            if (space[run][PARTITIONS_AT + p] & ~partitions || space[run][KEYS_AT + p] & ~keys) return 0;
        }
    return 1;
}

/* Prints how often each kind of call found something. Is no count 0? */
static int tried(const char *what, const uint32_t *times)
{
    printf("%s by looks %u, by receives %u, by takes %u\n", what, (unsigned)times[LOOK], (unsigned)times[RECEIVE], (unsigned)times[TAKE]);
    return times[LOOK] && times[RECEIVE] && times[TAKE];
}

int main(void)
{
    seed = 7;
    for (uint32_t pair = 0; pair < PAIRS; pair++) {
        open_both();
        for (uint32_t step = 0; step < STEPS; step++) {
            for (uint32_t run = 0; run < 2; run++)
                for (uint32_t k = below(MOST_OTHERS + 1); k > 0; k--) other_call(run);
            if (!group_call() || !same_after()) {
                printf("FAILED: pair %u, step %u: a neighbour was felt\n", (unsigned)pair, (unsigned)step);
                return 1;
            }
        }
    }
    printf("group calls compared %u, entries compared %u, others' puts done %u\n", (unsigned)compared, (unsigned)entries,
           (unsigned)others_done);
    int all = tried("found by the group:", found);
    all &= tried("a name that the member lacked:", lacked);
    all &= tried("found by others:", others_found);
    printf("found by templates with bounds: by the group %u, by others %u\n", (unsigned)found_by_bounds, (unsigned)others_found_by_bounds);
    printf("found by sets of several: by the group %u, by others %u\n", (unsigned)found_by_several, (unsigned)others_found_by_several);
    printf("others' calls with a set that overlaps the group's names in part, kept out of the grasp by a key %u\n", (unsigned)spared_by_key);
    printf("others' pairs in the grasp by one of several partitions, all refused %u\n", (unsigned)reached_by_one);
    printf("groups without partition 0: pairs of runs %u, members' calls refused for it alone %u\n", (unsigned)pairs_without_0,
           (unsigned)refused_for_0);
    for (uint32_t several = 0; several < 2; several++) {
        printf("others' puts there under partition 0%s, done %u\n", several ? " in a set" : "", (unsigned)others_in_0[several][PUT]);
        all &= tried(several ? "found there by sets with partition 0:" : "found there by partition 0:", others_in_0[several]);
        all &= others_in_0[several][PUT] > 0;
    }
    if (!all || !compared || !entries || !others_done || !found_by_bounds || !others_found_by_bounds || !found_by_several
        || !others_found_by_several || !spared_by_key || !reached_by_one || !pairs_without_0 || pairs_without_0 == PAIRS || !refused_for_0)
        return printf("FAILED: a count is 0\n"), 1;
    printf("%u pairs of runs alike\n", (unsigned)PAIRS);
    return 0;
}
