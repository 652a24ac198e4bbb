/* The start order by the proved library against plain C, list by list, on the machine that this runs on: the answer, the whole result,
   the pairs, and guards around all of it. Both are also held to what an order and a circle are, step by step. Prints how often each was
   seen and a hash of the whole sequence, which is the same on every machine. Ends with status 1 where the two differ, or where something
   was never tried. */
#include "plain.h"
#include "random.h"
#include "space.h"
#include "tried.h"
#include <stdio.h>
#include <string.h>

#ifndef LISTS
#define LISTS 20000 /* at random */
#endif
enum { GUARDS = 8, MORE = 3, ROOM = SPACE_MOST_PAIRS + MORE, LONGEST_RESULT = 10, ANSWERS = 117 };

/* What stands behind the pairs looks like more of them, so that a look behind their end is felt. */
static uint64_t pairs[ROOM], kept[ROOM];
static struct lent {
    uint64_t before[GUARDS], result[LONGEST_RESULT], after[GUARDS];
} proved, plain, earlier;
static uint64_t hash = 0xcbf29ce484222325u;

static void hash_in(uint64_t word) { hash = (hash ^ word) * 0x100000001b3u; }

/* 1. What an order and a circle are. */

static uint32_t before[SPACE_PARTIES]; /* who comes before each party, a bit each */

static void read_pairs(uint64_t count)
{
    memset(before, 0, sizeof before);
    for (uint64_t i = 0; i < count; i++) before[(uint32_t)pairs[i]] |= 1u << (pairs[i] >> 32);
}

/* The smallest party that isn't placed and waits for nobody else who isn't. */
static uint32_t next_party(uint32_t placed)
{
    uint32_t p = 0;
    while (p < SPACE_PARTIES && (placed >> p & 1 || before[p] & ~placed)) p++;
    return p;
}

static int is_order(const uint64_t *result)
{
    uint32_t placed = 0;
    for (int i = 0; i < SPACE_PARTIES; i++) {
        uint32_t p = next_party(placed);
        if (p == SPACE_PARTIES || result[i] != p) return 0;
        placed |= 1u << p;
    }
    return 1;
}

/* Is there a chain of pairs from the party back to itself? */
static int on_circle(uint32_t party)
{
    uint32_t reached = before[party], old;
    do {
        old = reached;
        for (uint32_t p = 0; p < SPACE_PARTIES; p++)
            if (old >> p & 1) reached |= before[p];
    } while (reached != old);
    return reached >> party & 1;
}

static int is_first_on_circle(uint32_t party)
{
    for (uint32_t p = 0; p < party; p++)
        if (on_circle(p)) return 0;
    return on_circle(party);
}

/* The smallest party that can't be placed: it may only wait for a circle. */
static uint32_t first_left(void)
{
    uint32_t placed = 0, p;
    while ((p = next_party(placed)) < SPACE_PARTIES) placed |= 1u << p;
    for (p = 0; placed >> p & 1; p++) continue;
    return p;
}

static int is_good(uint64_t word) { return word >> 32 < SPACE_PARTIES && (uint32_t)word < SPACE_PARTIES; }

static int all_good(uint64_t count)
{
    for (uint64_t i = 0; i < count; i++)
        if (!is_good(pairs[i])) return 0;
    return 1;
}

/* Is it the answer, and is the result what it has to be? */
static int as_defined(uint32_t answer, uint64_t count, uint64_t result_len)
{
    if (count > SPACE_MOST_PAIRS || result_len < SPACE_PARTIES) return answer == 115;
    if (!all_good(count)) return answer == 116;
    read_pairs(count);
    return answer == 0 ? is_order(proved.result) : answer <= SPACE_PARTIES && is_first_on_circle(answer - 1);
}

/* 2. Lists. The order of evaluation is left open within an expression of C, so no expression here has two numbers whose order matters. */

enum { SHORT, OF_FOUR, ORDERED, CIRCLES, ANYHOW, DAMAGED, SORTS };
static const char *const sorts[] = {"up to two pairs", "three pairs of four parties", "in some order", "with circles", "anyhow", "damaged"};
static uint32_t answers[SORTS][ANSWERS], lengths[LONGEST_RESULT + 1];
static uint32_t of_one, only_waiting, twice, full, one_more, both_refusals, long_count, long_result, low_half, high_half;

/* Pairs that some order of the parties respects. */
static void ordered_pairs(uint32_t count)
{
    uint32_t order[SPACE_PARTIES];
    for (uint32_t i = 0; i < SPACE_PARTIES; i++) {
        uint32_t j = below(i + 1);
        order[i] = order[j], order[j] = i;
    }
    for (uint32_t i = 0; i < count; i++) {
        uint32_t first = below(SPACE_PARTIES - 1), second = first + 1 + below(SPACE_PARTIES - 1 - first);
        pairs[i] = space_before(order[first], order[second]);
    }
}

static uint64_t any_pair(void)
{
    uint32_t a = below(SPACE_PARTIES), b = below(SPACE_PARTIES);
    return space_before(a, b);
}

/* A word with a party above 7 in one half, or in both, just above or far. */
static uint64_t damaged_pair(void)
{
    uint64_t word = any_pair(), up = 8u + below(3);
    if (seldom(2)) up = 8ull << below(29);
    uint32_t where = below(3);
    if (where != 0) word |= up;
    if (where != 1) word |= up << 32;
    return word;
}

/* The count of pairs of a list of a sort. What isn't written keeps what earlier lists left. */
static uint32_t a_list(uint32_t sort)
{
    uint32_t count = seldom(6) ? SPACE_MOST_PAIRS + MORE - 1 - below(4) : seldom(3) ? below(SPACE_MOST_PAIRS) : below(14);
    ordered_pairs(count);
    uint32_t others = sort == CIRCLES ? 1 + below(3) : sort == ANYHOW ? count : 0;
    for (; others && count; others--) pairs[below(count)] = any_pair();
    if (sort == DAMAGED)
        for (uint32_t n = 1 + below(2); n && count; n--) pairs[seldom(3) ? count - 1 : below(count)] = damaged_pair();
    if (sort != DAMAGED) pairs[count] = damaged_pair();
    return count;
}

/* 3. Calls. */

static uint64_t guard(uint32_t at) { return 0x6A09E667F3BCC909u + at; }

/* What the words held before plays no part. */
static void earlier_words(void)
{
    for (uint32_t i = 0; i < LONGEST_RESULT; i++) earlier.result[i] = guard(100) * (i + 1);
    for (uint32_t i = 0; i < GUARDS; i++) earlier.before[i] = guard(i), earlier.after[i] = guard(GUARDS + i);
    proved = plain = earlier;
}

/* what is wrong after a call, in a word; nothing where all is right */
static const char *wrong(uint32_t a, uint32_t b, uint64_t count, uint64_t result_len)
{
    if (a != b || a >= ANSWERS) return "answer";
    if (memcmp(&proved, &plain, sizeof proved)) return "result";
    if (memcmp(pairs, kept, sizeof pairs)) return "pairs";
    if (memcmp(proved.before, earlier.before, sizeof proved.before) || memcmp(proved.after, earlier.after, sizeof proved.after)) return "guards";
    for (uint32_t i = SPACE_PARTIES; i < LONGEST_RESULT; i++)
        if (proved.result[i] != earlier.result[i]) return "later words";
    if (a && memcmp(&proved, &earlier, sizeof proved)) return "words of a circle or a refusal";
    if (!as_defined(a, count, result_len)) return "not as it is defined";
    return 0;
}

static void count_seen(uint32_t sort, uint32_t answer, uint64_t count, uint64_t result_len)
{
    answers[sort][answer]++;
    if (result_len <= LONGEST_RESULT) lengths[result_len]++;
    long_count += answer == 115 && count >> 32, long_result += answer != 115 && result_len >> 32;
    full += answer == 0 && count == SPACE_MOST_PAIRS;
    one_more += answer == 115 && count == SPACE_MOST_PAIRS + 1 && result_len >= SPACE_PARTIES;
    both_refusals += answer == 115 && count <= ROOM && !all_good(count);
    if (answer == 0)
        for (uint64_t i = 1; i < count; i++) twice += pairs[i] == pairs[0];
    if (answer == 116) {
        uint64_t all = 0;
        for (uint64_t i = 0; i < count; i++) all |= pairs[i];
        low_half += all >> 32 < SPACE_PARTIES, high_half += (uint32_t)all < SPACE_PARTIES;
    }
    if (answer && answer <= SPACE_PARTIES) {
        of_one += before[answer - 1] >> (answer - 1) & 1;
        only_waiting += first_left() != answer - 1;
    }
}

/* Makes the call of both with this many of the pairs. */
static int one_call(uint32_t number, uint32_t sort, uint64_t count, uint64_t result_len)
{
    earlier_words();
    memcpy(kept, pairs, sizeof pairs);
    uint32_t a = space_start_order(pairs, count, proved.result, result_len), b = plain_start_order(pairs, count, plain.result, result_len);
    const char *what = wrong(a, b, count, result_len);
    if (what) {
        printf("FAILED at list %u, %s: %s: %u and %u\n", (unsigned)number, sorts[sort], what, (unsigned)a, (unsigned)b);
        return 0;
    }
    count_seen(sort, a, count, result_len);
    hash_in(a);
    for (uint32_t i = 0; i < LONGEST_RESULT; i++) hash_in(proved.result[i]);
    return 1;
}

/* Every list of no, one or two pairs of the parties 0 to 8, and of three pairs of the parties 0, 1, 6 and 7. The number of lists, or 0. */
static uint32_t short_lists(void)
{
    enum { NINE = SPACE_PARTIES + 1, FOUR = 4 };
    static const uint32_t four[FOUR] = {0, 1, 6, 7};
    uint32_t number = 0;
    if (!one_call(number++, SHORT, 0, SPACE_PARTIES)) return 0;
    for (uint32_t i = 0; i < NINE * NINE; i++) {
        pairs[0] = space_before(i / NINE, i % NINE);
        if (!one_call(number++, SHORT, 1, SPACE_PARTIES)) return 0;
        for (uint32_t j = 0; j < NINE * NINE; j++) {
            pairs[1] = space_before(j / NINE, j % NINE);
            if (!one_call(number++, SHORT, 2, SPACE_PARTIES)) return 0;
        }
    }
    for (uint32_t i = 0; i < FOUR * FOUR * FOUR * FOUR * FOUR * FOUR; i++) {
        for (uint32_t at = 0, rest = i; at < 3; at++, rest /= FOUR * FOUR)
            pairs[at] = space_before(four[rest / FOUR % FOUR], four[rest % FOUR]);
        if (!one_call(number++, OF_FOUR, 3, SPACE_PARTIES)) return 0;
    }
    return number;
}

static int one_list(uint32_t number)
{
    uint32_t sort = ORDERED + below(SORTS - ORDERED);
    uint64_t count = a_list(sort), result_len = SPACE_PARTIES + below(3), upper = 1 + below(9);
    upper <<= 32 + below(28);
    if (seldom(8)) result_len = below(LONGEST_RESULT + 1);
    if (seldom(20)) result_len |= upper;
    else if (seldom(20)) count |= upper;
    return one_call(number, sort, count, result_len);
}

/* 4. What was seen. */

static int all_tried(void)
{
    uint32_t ok = 1, least = UINT32_MAX;
    for (uint32_t sort = 0; sort < SORTS; sort++) {
        printf("%s:", sorts[sort]);
        for (uint32_t n = 0; n < ANSWERS; n++)
            if (answers[sort][n]) printf(" %u x %u", (unsigned)n, (unsigned)answers[sort][n]);
        printf("\n");
        for (uint32_t n = 0; n < ANSWERS; n++) {
            int wanted = n == 0 ? sort != DAMAGED : n == 115 ? sort >= ORDERED : n == 116 ? sort == SHORT || sort == DAMAGED
                : n <= SPACE_PARTIES && (sort == SHORT || sort == CIRCLES || sort == ANYHOW);
            if (wanted && !answers[sort][n]) ok = 0, printf("FAILED: never answered %u, %s\n", (unsigned)n, sorts[sort]);
        }
    }
    for (uint32_t i = 0; i <= LONGEST_RESULT; i++) least = lengths[i] < least ? lengths[i] : least;
    ok &= tried("each count of result words from 0 to 10 at least", least) & tried("result words above 32 bits:", long_result);
    ok &= tried("counts of pairs above 32 bits:", long_count) & tried("64 pairs, an order:", full) & tried("65 pairs:", one_more);
    ok &= tried("refused by 115, and 116 would be next:", both_refusals) & tried("a pair twice in an order:", twice);
    ok &= tried("a party above 7 in lower halves alone:", low_half) & tried("in upper halves alone:", high_half);
    ok &= tried("circles of one:", of_one) & tried("smaller than the one on a circle is one that only waits:", only_waiting);
    return ok;
}

int main(void)
{
    seed = 12;
    uint32_t number = short_lists();
    if (!number) return 1;
    for (uint32_t n = 0; n < LISTS; n++, number++)
        if (!one_list(number)) return 1;
    if (!all_tried()) return 1;
    printf("hash %08x%08x\n%u lists alike\n", (unsigned)(hash >> 32), (unsigned)hash, (unsigned)number);
    return 0;
}
