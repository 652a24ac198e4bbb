/* The proved library against plain C, call by call, on the machine that this runs on: the answer, every word of space and result,
   what was lent to be read, and guard words around all of it. By itself it is seen that an opening gives what the roster says and key 0,
   that no call is refused for a damage that nobody has done, that a look leaves every word of the space, that whoever receives or takes
   a name holds it, that a name which isn't held is refused by its own number, also where the result is too short, and that 106 is said
   of every result that is too short where nothing else is wrong, and of no other. Calls at random come first, then each of the 128 rows
   in its turn. Prints how often each answer was seen in the calls at random and a hash of their sequence, which is the same on every
   machine. Ends with status 1 where the two differ, or where something was never tried. */
#include "calls.h"
#include "plain.h"
#include "space.h"
#include "tried.h"
#include <stdio.h>

#ifndef CALLS
#define CALLS 120000
#endif
enum { GUARDS = 8, BLOCK = 400, ANSWERS = 115, FIRST_MESSAGE = 1000 };

struct lent {
    uint64_t before[GUARDS], space[WORDS], between[GUARDS], result[MOST_FIELDS], after[GUARDS];
};
enum { LENT = sizeof(struct lent) / sizeof(uint64_t) };
static struct lent proved, plain;

static uint64_t guard(uint32_t at) { return 0x6A09E667F3BCC909u + at; }

typedef uint32_t look_call(const uint64_t *, uint64_t, uint32_t, uint64_t, int32_t, const uint64_t *, uint64_t, uint64_t *, uint64_t);
typedef uint32_t seek_call(uint64_t *, uint64_t, uint32_t, uint64_t, int32_t, const uint64_t *, uint64_t, uint64_t *, uint64_t);
static const struct side {
    uint32_t (*open)(uint64_t *, uint64_t, const uint64_t *, uint64_t);
    uint32_t (*put)(uint64_t *, uint64_t, uint32_t, uint64_t, int32_t, uint64_t, int32_t, const uint64_t *, uint64_t);
    look_call *look;
    seek_call *receive, *take;
} library = {space_open, space_put, space_look, space_receive, space_take},
  by_hand = {plain_open, plain_put, plain_look, plain_receive, plain_take};

static uint32_t make(const struct side *by, struct lent *on, const struct call *c)
{
    uint64_t *s = on->space;
    if (c->kind == OPEN) return by->open(s, c->space_len, c->list, c->count);
    if (c->kind == PUT)
        return by->put(s, c->space_len, c->party, c->set[0], c->key[0], c->set[1], c->key[1], c->list, c->count);
    if (c->kind == LOOK) return by->look(s, c->space_len, c->party, c->set[0], c->key[0], c->list, c->count, on->result, c->room);
    return (c->kind == RECEIVE ? by->receive : by->take)(s, c->space_len, c->party, c->set[0], c->key[0], c->list, c->count,
                                                         on->result, c->room);
}

/* Bits of the space turned over, by the clause of soundness that this should break; 0 where the space has no place for that. The clauses
   are S2 and S4 to S9 of docs/RULES.md, then S6 by a bound or by an empty set in a live row. UNBROKEN breaks none: it changes what
   partitions a party holds, of which no clause asks anything. */
enum { FIRST_CLAUSE = 2, UNBROKEN = 3, BY_AT_LEAST = 10, BY_AT_MOST, BY_READ_SET, BY_TAKE_SET, CLAUSES };

static int damage(uint32_t clause, const uint64_t *space, uint32_t *word, uint64_t *bits)
{
    static const uint8_t in_head[5] = {WRITER, READ_KEY, TAKE_KEY, COUNT, FIELDS}; /* and the first field */
    uint32_t live = (uint32_t)space[0], at = live ? row_at(below(live)) : 0;
    *bits = 1ull << below(64);
    switch (clause) {
    case 2: return *word = 0, *bits = 1ull << (8 + below(56)), 1;
    case UNBROKEN: return *word = PARTITIONS_AT + below(PARTIES), *bits = seldom(2) ? set_of(0) : any64(), 1;
    case 4: return *word = KEYS_AT + below(PARTIES), *bits = 1ull << 31, 1;
    case 5: return *word = KEYS_AT + below(PARTIES), *bits = 1ull << 63, 1;
    case 6: return *word = at + in_head[below(5)], *bits = 1ull << (6 + below(58)), live > 0;
    case 7: return *word = at + ROW - 1, live > 0 && space[at + COUNT] < MOST_FIELDS;
    case 8: return *word = at, *bits = 1 + below(PARTIES - 1), live > 0;
    case BY_AT_LEAST:
    case BY_AT_MOST:
        *word = live ? at + FIELDS + below((uint32_t)space[at + COUNT]) : 0;
        *bits = (space[*word] & ~(uint64_t)UINT32_MAX) ^ (clause == BY_AT_LEAST ? AT_LEAST : AT_MOST);
        return live > 0;
    case BY_READ_SET: return *word = at + READ_SET, *bits = space[*word], live > 0;
    case BY_TAKE_SET: return *word = at + TAKE_SET, *bits = space[*word], live > 0;
    default: return *word = row_at(live) + below(ROW), live < ROWS;
    }
}

static uint32_t answers[KINDS][ANSWERS], damaged[CLAUSES], long_space, long_roster, long_fields, long_result, bound_63, most_rows;
static uint64_t hash = 0xcbf29ce484222325u;
static uint64_t earlier[WORDS]; /* the library's space before a call */
static uint32_t lacked[KINDS];  /* found with a name that the party did not hold */

/* Of openings: how often a party is given partition 0, or others alone, or no partition; and key 0, though the roster doesn't list it. Of
   calls by whoever lacks partition 0: how often one is carried out, or refused by 113 or 107 for it alone, or finds it in a field. */
static uint32_t given_0, given_others, given_none, given_key_0;
enum { CARRIED_OUT, LACKED_IN_PAIR, LACKED_IN_FIELD, FOUND_IN_FIELD, WITHOUT_0 };
static uint32_t without_0[KINDS][WITHOUT_0];

/* What the bounds met with, each counted for itself: in a put that was refused by 105, or in a template that was not refused. */
enum { NONE, FOUND, ITS_NUMBER, BY_0, BY_THE_LARGEST, A_PARTITION, A_KEY, IN_A_PUT, MEETINGS };
static uint32_t met[2][MEETINGS]; /* at least, at most */

/* What came of the sets, by kind of call: found by another set than the entry's; by partitions above 31 alone; a row that agrees but for
   its set; refused by 113 with a set that is held in part, and by 104 with an empty one, and nothing else that would be refused so. */
enum { BY_ANOTHER_SET, BY_UPPER, KEPT_AWAY, HELD_IN_PART, EMPTY_SET, SET_MEETINGS };
static uint32_t by_sets[KINDS][SET_MEETINGS];

/* What a call lacks, a bit each; the pair of a template counts as that for reading. Of calls that were refused for it: how often each was
   lacked, with what else. Of those with too short a result, by kind of call, and of puts with 16 live entries: by which number. */
enum { READ_SET_LACKED = 1, READ_KEY_LACKED = 2, TAKE_SET_LACKED = 4, TAKE_KEY_LACKED = 8, PARTITION_LACKED = 16, KEY_LACKED = 32, LACKS = 64 };
#define SETS_LACKED (READ_SET_LACKED | TAKE_SET_LACKED)
#define KEYS_LACKED (READ_KEY_LACKED | TAKE_KEY_LACKED)
enum { BY_113, BY_114, BY_107, FOR_NAMES };
static uint32_t refused_for[KINDS][LACKS], short_and_lacking[KINDS][FOR_NAMES], full_and_lacking[FOR_NAMES];

/* Of calls that were refused by 106, so that they lacked nothing: what their templates carry. */
enum { NO_NAMES, BOUNDS_ALONE, NAMES_HELD, CARRIED };
static uint32_t short_alone[KINDS][CARRIED];

/* Of a call that is tested for names: not refused by 101 to 105. */
static uint32_t lacked_by(const struct call *c, const uint64_t *space)
{
    uint32_t all = 0;
    for (uint32_t i = 0; i < (c->kind == PUT ? 2 : 1); i++) {
        if (share(c->set[i], ~space[PARTITIONS_AT + c->party])) all |= READ_SET_LACKED << 2 * i;
        if (!has(space[KEYS_AT + c->party], (uint32_t)(c->key[i] + 31))) all |= READ_KEY_LACKED << 2 * i;
    }
    for (uint32_t i = 0; i < c->count; i++)
        if (c->list[i] < WILDCARD && lacks(space, c->party, c->list[i])) all |= c->list[i] < KEY_FIELD ? PARTITION_LACKED : KEY_LACKED;
    return all;
}

static uint32_t refusal_for(uint32_t lacked) { return lacked & SETS_LACKED ? 113 : lacked & KEYS_LACKED ? 114 : lacked ? 107 : 0; }
static int is_for_name(uint32_t answer) { return answer == 107 || answer == 113 || answer == 114; }
static int is_after_names(uint32_t answer) { return answer <= MOST_FIELDS || answer == 106 || answer == 108 || is_for_name(answer); }
static int is_short(const struct call *c) { return c->kind > PUT && c->room < c->count; }

static void hash_in(uint64_t word) { hash = (hash ^ word) * 0x100000001b3u; }

/* Does a bound meet with a name of a kind (1, 2) whose number it would allow, in a live row with the template's pair and count? A
   row that was taken had none. */
static int meets(const struct call *c, uint32_t place, uint32_t kind)
{
    uint32_t pair = pair_of(c), bound = (uint32_t)c->list[place];
    for (uint32_t r = 0; r < proved.space[0]; r++) {
        const uint64_t *row = proved.space + row_at(r);
        uint32_t number = (uint32_t)row[FIELDS + place];
        if (!share(row[pair], c->set[0]) || (int32_t)row[pair + 1] != 31 - c->key[0] || row[COUNT] != c->count) continue;
        if (row[FIELDS + place] >> 32 == kind && (c->list[place] < AT_MOST ? number >= bound : number <= bound)) return 1;
    }
    return 0;
}

static void count_bounds(const struct call *c, uint32_t answer)
{
    for (uint32_t i = 0; c->kind != OPEN && i < MOST_FIELDS && i < c->count; i++) {
        uint64_t bound = c->list[i];
        if (!is_bound(bound)) continue;
        uint32_t *times = met[bound >= AT_MOST], number = (uint32_t)bound;
        if (c->kind == PUT) times[IN_A_PUT] += answer == 105;
        if (c->kind == PUT || answer > MOST_FIELDS) continue;
        times[A_PARTITION] += meets(c, i, 1);
        times[A_KEY] += meets(c, i, 2);
        times[answer ? FOUND : NONE]++;
        times[ITS_NUMBER] += answer && proved.result[i] == number;
        times[BY_0] += answer && number == 0;
        times[BY_THE_LARGEST] += answer && number == UINT32_MAX;
    }
}

/* Of a call that is refused by 104 or 113: is nothing but sets the cause, empty ones or some that are held in part? */
static void count_refused(const struct call *c, uint32_t answer)
{
    uint64_t held = earlier[PARTITIONS_AT + c->party];
    uint32_t empty = 0, in_part = 0, others = answer == 113 && lacked_by(c, earlier) & ~SETS_LACKED;
    for (uint32_t i = 0; i < (c->kind == PUT ? 2 : 1); i++) {
        empty += !c->set[i];
        in_part += share(c->set[i], held) && share(c->set[i], ~held);
        others += answer == 104 ? c->key[i] < -31 || c->key[i] > 31 : !share(c->set[i], held);
    }
    by_sets[c->kind][EMPTY_SET] += answer == 104 && empty && !others;
    by_sets[c->kind][HELD_IN_PART] += answer == 113 && in_part && !others;
}

static void count_names(const struct call *c, uint32_t answer)
{
    if (c->kind == OPEN || !is_for_name(answer)) return;
    uint32_t by = answer == 113 ? BY_113 : answer == 114 ? BY_114 : BY_107, live = 0;
    refused_for[c->kind][lacked_by(c, earlier)]++;
    short_and_lacking[c->kind][by] += is_short(c);
    for (uint32_t r = 0; c->kind == PUT && r < earlier[0]; r++) live += earlier[row_at(r) + WRITER] == c->party;
    full_and_lacking[by] += live == SHARE;
}

static void count_short(const struct call *c, uint32_t answer)
{
    uint32_t names = 0, bounds = 0;
    for (uint32_t i = 0; answer == 106 && i < c->count; i++) {
        names += c->list[i] >= PARTITION_FIELD && c->list[i] < WILDCARD;
        bounds += is_bound(c->list[i]);
    }
    short_alone[c->kind][names ? NAMES_HELD : bounds ? BOUNDS_ALONE : NO_NAMES] += answer == 106;
}

static void count_opening(const uint64_t *roster)
{
    for (uint32_t p = 0; p < PARTIES; p++) {
        ++*(has(roster[p], 0) ? &given_0 : roster[p] ? &given_others : &given_none);
        given_key_0 += !has(roster[PARTIES + p], 31);
    }
}

static void count_without_0(const struct call *c, uint32_t answer)
{
    uint32_t *times = without_0[c->kind], in_fields = 0, others = 0;
    if (!is_after_names(answer) || has(earlier[PARTITIONS_AT + c->party], 0)) return;
    uint64_t sets = c->kind == PUT ? c->set[0] | c->set[1] : c->set[0];
    times[CARRIED_OUT] += answer <= MOST_FIELDS;
    times[LACKED_IN_PAIR] += (sets & ~earlier[PARTITIONS_AT + c->party]) == set_of(0);
    for (uint32_t i = 0; answer == 107 && i < c->count; i++)
        if (c->list[i] < WILDCARD && lacks(earlier, c->party, c->list[i])) ++*(c->list[i] == PARTITION_FIELD ? &in_fields : &others);
    times[LACKED_IN_FIELD] += in_fields && !others;
    for (uint32_t i = 0; c->kind > PUT && answer <= MOST_FIELDS && i < answer; i++)
        if (proved.result[i] == PARTITION_FIELD) { times[FOUND_IN_FIELD]++; break; }
}

/* Does a row agree with a template in count, key and fields? One with bounds isn't asked about. */
static int agrees_otherwise(const struct call *c, const uint64_t *row)
{
    if (row[COUNT] != c->count || (int32_t)row[pair_of(c) + 1] != 31 - c->key[0]) return 0;
    for (uint32_t i = 0; i < c->count; i++)
        if (c->list[i] != WILDCARD && c->list[i] != row[FIELDS + i]) return 0;
    return 1;
}

/* With the rows before the call. */
static void count_sets(const struct call *c, uint32_t answer)
{
    uint32_t *times = by_sets[c->kind], away = 0;
    if (c->kind == OPEN) return;
    if (answer == 104 || answer == 113) count_refused(c, answer);
    if (c->kind == PUT || answer > MOST_FIELDS) return;
    for (uint32_t r = 0; r < earlier[0]; r++) {
        const uint64_t *row = earlier + row_at(r);
        uint64_t set = row[pair_of(c)];
        if (!agrees_otherwise(c, row)) continue;
        if (share(set, c->set[0])) {
            times[BY_ANOTHER_SET] += set != c->set[0];
            times[BY_UPPER] += !share((uint32_t)set, c->set[0]);
            break;
        }
        away++;
    }
    times[KEPT_AWAY] += away > 0;
}

/* Of the fields that a call found: how many carry a name that its party lacks, by these holdings? */
static uint32_t lacking(const struct call *c, uint32_t answer, const uint64_t *space)
{
    uint32_t names = 0;
    for (uint32_t i = 0; c->kind > PUT && answer <= MOST_FIELDS && i < answer; i++) names += lacks(space, c->party, proved.result[i]);
    return names;
}

static void count(const struct call *c, uint32_t answer)
{
    answers[c->kind][answer]++;
    count_bounds(c, answer);
    count_sets(c, answer);
    count_names(c, answer);
    count_short(c, answer);
    if (c->kind != OPEN) count_without_0(c, answer);
    else if (answer == 0) count_opening(c->list);
    lacked[c->kind] += lacking(c, answer, earlier) > 0;
    if (c->space_len >> 32) long_space++;
    else if (c->count >> 32) *(c->kind == OPEN ? &long_roster : &long_fields) += answer == (c->kind == OPEN ? 109 : 103);
    else if (c->kind > PUT && c->room >> 32) long_result += answer - 1 < MOST_FIELDS;
    if (c->kind == OPEN && answer == 109 && c->count == ROSTER) bound_63++;
    if (proved.space[0] <= ROWS && proved.space[0] > most_rows) most_rows = (uint32_t)proved.space[0];
    hash_in(answer);
    for (uint32_t i = 0; i < MOST_FIELDS; i++) hash_in(proved.result[i]);
}

static int opened_by(const uint64_t *roster)
{
    for (uint32_t p = 0; p < PARTIES; p++)
        if (proved.space[PARTITIONS_AT + p] != roster[p] || proved.space[KEYS_AT + p] != (roster[PARTIES + p] | 1ull << 31)) return 0;
    return 1;
}

/* what differs after a call, in a word; nothing where all is alike */
static const char *difference(uint32_t by_library, uint32_t by_c, const struct call *now, const struct call *before)
{
    const uint64_t *a = (const uint64_t *)&proved, *b = (const uint64_t *)&plain, *c = now->list, *d = before->list;
    if (by_library != by_c || by_library >= ANSWERS) return "answer";
    for (uint32_t i = 0; i < LENT; i++)
        if (a[i] != b[i]) return "words";
    for (uint32_t i = 0; now->kind == LOOK && i < WORDS; i++)
        if (proved.space[i] != earlier[i]) return "space after a look";
    if (now->kind == OPEN && by_library == 0 && !opened_by(now->list)) return "holdings";
    if (now->kind > LOOK && lacking(now, by_library, proved.space)) return "names";
    if (now->kind != OPEN && is_after_names(by_library)) {
        uint32_t for_name = refusal_for(lacked_by(now, earlier));
        if (for_name != (is_for_name(by_library) ? by_library : 0)) return "refusal for a name";
        if (!for_name && is_short(now) != (by_library == 106)) return "refusal for the result's length";
    }
    for (uint32_t i = 0; i < GUARDS; i++)
        if (proved.before[i] != guard(i) || proved.between[i] != guard(GUARDS + i) || proved.after[i] != guard(2 * GUARDS + i)) return "guards";
    for (uint32_t i = 0; i < 18; i++)
        if (c[i] != d[i]) return "fields lent";
    return 0;
}

/* Makes the call of both. The answer, or ANSWERS where something differs. */
static uint32_t alike(const struct call *c, const char *which, uint32_t number)
{
    struct call kept = *c;
    for (uint32_t i = 0; i < WORDS; i++) earlier[i] = proved.space[i];
    uint32_t a = make(&library, &proved, c), b = make(&by_hand, &plain, c);
    const char *what = difference(a, b, c, &kept);
    if (what) {
        printf("FAILED at %s %u, a call of kind %u: %s: %u and %u\n", which, (unsigned)number, (unsigned)c->kind, what, (unsigned)a, (unsigned)b);
        return ANSWERS;
    }
    return a;
}

static uint32_t one_call(const struct call *c, uint32_t number, int is_sound)
{
    uint32_t answer = alike(c, "call", number);
    if (is_sound && answer == 101 && c->kind != OPEN && c->space_len == WORDS) {
        printf("FAILED at call %u, a call of kind %u: a sound space is refused\n", (unsigned)number, (unsigned)c->kind);
        return ANSWERS;
    }
    if (answer != ANSWERS) count(c, answer);
    return answer;
}

static void turn(uint32_t word, uint64_t bits) { proved.space[word] ^= bits, plain.space[word] ^= bits; }

/* A call on a damaged space. What a refusal leaves is mended again. A change that breaks no clause stays. */
static uint32_t damaged_call(const struct call *c, uint32_t number)
{
    uint32_t word, clause = FIRST_CLAUSE + below(CLAUSES - FIRST_CLAUSE);
    uint64_t bits;
    if (!damage(clause, proved.space, &word, &bits)) return one_call(c, number, 1);
    turn(word, bits);
    uint32_t answer = one_call(c, number, clause == UNBROKEN);
    if (answer == 101 || answer == 109) turn(word, bits); /* the second is of an opening */
    damaged[clause] += c->kind != OPEN && c->space_len == WORDS && (answer == 101) == (clause != UNBROKEN);
    return answer;
}

static int all_calls(void)
{
    static struct call c;
    uint32_t percent_puts = 0;
    for (uint32_t n = 0; n < CALLS; n++) {
        uint32_t in_block = n % BLOCK;
        if (in_block == 0) percent_puts = n / BLOCK % 3 == 0 ? 95 : 20 + below(50);
        a_call(&c, proved.space, percent_puts);
        if (in_block == 0) {
            c = (struct call){.kind = OPEN, .count = ROSTER, .space_len = WORDS};
            for (uint32_t i = 0; i < ROSTER; i++) c.list[i] = usual_roster[i];
            for (uint32_t i = 0; i < WORDS; i++) hash_in(proved.space[i]);
        }
        uint32_t answer = in_block && proved.space[0] <= ROWS && seldom(20) ? damaged_call(&c, n) : one_call(&c, n, n > 0);
        if (answer == ANSWERS) return 0;
    }
    return 1;
}

/* Row by row: what is put into a row differs in every word, but for the field count, from what is put into the rows beside it. Every
   sixteenth has all partitions in its sets. */
static struct call entry_of(uint32_t row)
{
    struct call c = {.kind = PUT, .party = row % PARTIES, .space_len = WORDS, .count = MOST_FIELDS, .room = MOST_FIELDS};
    for (uint32_t i = 0; i < 2; i++) {
        uint32_t number = row + 32 * i;
        c.set[i] = row % 16 == 5 ? UINT64_MAX : set_of(number % 64) | set_of((number + 1) % 64) | set_of((number + 21) % 64);
        c.key[i] = (int32_t)(number % 63) - 31;
    }
    for (uint32_t i = 0; i < MOST_FIELDS; i++) c.list[i] = FIRST_MESSAGE + MOST_FIELDS * row + i;
    return c;
}

/* with a template that only that entry matches, and one partition of its set */
static struct call search_of(enum kind kind, uint32_t row)
{
    struct call c = entry_of(row);
    c.kind = kind, c.set[0] = set_of((row + 32 * (kind == TAKE)) % 64), c.key[0] = -c.key[kind == TAKE];
    for (uint32_t i = 1; i < MOST_FIELDS; i++) c.list[i] = WILDCARD;
    return c;
}

#define BY_ROWS "call row by row"
static uint32_t in_rows; /* calls made */

static int due(struct call c, uint32_t right)
{
    uint32_t answer = alike(&c, BY_ROWS, in_rows);
    if (answer != right && answer != ANSWERS)
        printf("FAILED at " BY_ROWS " %u: answered %u and not %u\n", (unsigned)in_rows, (unsigned)answer, (unsigned)right);
    in_rows++;
    return answer == right;
}

static int looked_at_received_and_taken(uint32_t entry)
{
    for (enum kind kind = LOOK; kind <= TAKE; kind++)
        if (!due(search_of(kind, entry), MOST_FIELDS)) return 0;
    return 1;
}

/* Each word of a row in its turn is made bad; then a call is refused. */
static int bad_words_refused(uint32_t row, int is_live)
{
    for (uint32_t i = 0; i < ROW; i++) {
        uint64_t old = proved.space[row_at(row) + i]; /* no set is left of it */
        uint64_t bad = i == WRITER ? PARTIES : i == READ_SET || i == TAKE_SET ? old : i < COUNT ? 64 : i == COUNT ? 1 : WILDCARD;
        turn(row_at(row) + i, is_live ? bad : 1);
        if (!due(i % 4 ? search_of(PUT + i % 4, row) : entry_of(row), 101)) return 0;
        turn(row_at(row) + i, is_live ? bad : 1);
    }
    return 1;
}

/* What stands in a row is taken, so that the later rows move up, and put again. */
static int taken_and_put(uint32_t row)
{
    uint32_t entry = (uint32_t)(proved.space[row_at(row) + FIELDS] - FIRST_MESSAGE) / MOST_FIELDS;
    return looked_at_received_and_taken(entry) && due(entry_of(entry), 0);
}

/* Each row is written, found and taken as the newest, then the oldest is taken before it; at last each is taken of 128 live ones. */
static int all_rows(void)
{
    struct call all = {.kind = OPEN, .count = ROSTER, .space_len = WORDS};
    for (uint32_t i = 0; i < ROSTER; i++) all.list[i] = UINT64_MAX >> (i >= PARTIES);
    if (!due(all, 0)) return 0;
    for (uint32_t row = 0; row < ROWS; row++) {
        if (!bad_words_refused(row, 0)) return 0;
        /* two writers: a writer 0 that is left when the row is freed is no difference */
        for (uint32_t entry = row; entry < row + 2 && entry < ROWS; entry++)
            if (!due(entry_of(entry), 0) || !looked_at_received_and_taken(entry)) return 0;
        if (!due(entry_of(row), 0) || !taken_and_put(0)) return 0;
    }
    for (uint32_t row = 0; row < ROWS; row++)
        if (!bad_words_refused(row, 1) || !taken_and_put(row)) return 0;
    printf("calls row by row %u, alike\n", (unsigned)in_rows);
    return 1;
}

/* Can a call of this kind be refused so? */
static int is_refusal_of(uint32_t kind, uint32_t answer)
{
    if (kind == OPEN) return answer == 101 || answer == 109;
    return is_for_name(answer) || (answer >= 101 && answer <= 105) || answer == (kind == PUT ? 108 : 106);
}

/* Every combination of what a call can lack, by itself. */
static int all_lacked(const char *const *names)
{
    static const char *const lacked[] = {"a partition", "a key", "a partition and a key", "a name in a field", "a partition and a field's",
                                         "a key and a field's", "all three"};
    int ok = 1;
    for (uint32_t kind = PUT; kind < KINDS; kind++) {
        uint32_t sums[8] = {0}, seen = 0, all = 0;
        for (uint32_t i = 1; i < LACKS; i++) {
            if (kind != PUT && i & (TAKE_SET_LACKED | TAKE_KEY_LACKED)) continue;
            all++, seen += refused_for[kind][i] > 0;
            sums[!!(i & SETS_LACKED) + 2 * !!(i & KEYS_LACKED) + 4 * (i >= PARTITION_LACKED)] += refused_for[kind][i];
        }
        for (uint32_t i = 1; i < 8; i++) {
            char what[64];
            snprintf(what, sizeof what, "%s refused, lacking just %s:", names[kind], lacked[i - 1]);
            ok &= tried(what, sums[i]);
        }
        printf("%s lacking: %u of %u combinations%s\n", names[kind], (unsigned)seen, (unsigned)all, seen == all ? "" : " FAILED: not all");
        ok &= seen == all;
    }
    ok &= tried("put refused, lacking just the key for reading and a partition for taking:", refused_for[PUT][READ_KEY_LACKED | TAKE_SET_LACKED]);
    ok &= tried("put with 16 live entries, refused by 113:", full_and_lacking[BY_113]) & tried("by 114:", full_and_lacking[BY_114]);
    return ok & tried("by 107:", full_and_lacking[BY_107]);
}

static int all_short(const char *const *names)
{
    static const unsigned numbers[FOR_NAMES] = {113, 114, 107};
    static const char *const carried[CARRIED] = {"no names in its fields", "bounds and no names", "names, all held"};
    int ok = 1;
    for (uint32_t kind = LOOK; kind < KINDS; kind++) {
        char what[72];
        for (uint32_t i = 0; i < FOR_NAMES; i++) {
            snprintf(what, sizeof what, "%s, a short result and a name lacked, refused by %u:", names[kind], numbers[i]);
            ok &= tried(what, short_and_lacking[kind][i]);
        }
        for (uint32_t i = 0; i < CARRIED; i++) {
            snprintf(what, sizeof what, "%s refused by 106, lacking nothing, %s:", names[kind], carried[i]);
            ok &= tried(what, short_alone[kind][i]);
        }
    }
    return ok;
}

static int all_without_0(const char *const *names)
{
    static const char *const whats[] = {"carried out", "refused by 113 for it alone", "refused by 107 for it alone", "it is found"};
    int ok = tried("openings that give a party partition 0:", given_0) & tried("other partitions alone:", given_others);
    ok &= tried("no partition:", given_none) & tried("key 0, which isn't listed:", given_key_0);
    for (uint32_t kind = PUT; kind < KINDS; kind++)
        for (uint32_t i = 0; i < (kind == PUT ? FOUND_IN_FIELD : WITHOUT_0); i++) {
            char what[64];
            snprintf(what, sizeof what, "%s without partition 0, %s:", names[kind], whats[i]);
            ok &= tried(what, without_0[kind][i]);
        }
    return ok;
}

static int all_tried(void)
{
    static const char *const names[] = {"open", "put", "look", "receive", "take"}, *const bounds[] = {"at least", "at most"};
    static const char *const sets[] = {"found by another set", "found by partitions above 31 alone", "a row kept away by its set alone",
                                       "refused by 113, a set held in part", "refused by 104, an empty set"};
    static const char *const meetings[] = {"none", "found", "found, its own number", "0, found", "4294967295, found",
                                           "met with a partition", "met with a key", "refused in a put"};
    int ok = 1;
    for (uint32_t kind = 0; kind < KINDS; kind++)
        for (uint32_t a = 0; a < ANSWERS; a++) {
            int found = kind > PUT && a >= 1 && a <= MOST_FIELDS;
            char what[32];
            snprintf(what, sizeof what, "%s answered %u:", names[kind], (unsigned)a);
            if (a == 0 || found || is_refusal_of(kind, a)) ok &= tried(what, answers[kind][a]);
            else if (answers[kind][a]) ok = 0, printf("FAILED: %s %u\n", what, (unsigned)answers[kind][a]);
        }
    ok &= tried("look found a name that the party lacked and goes on lacking:", lacked[LOOK]);
    ok &= tried("receive gave it:", lacked[RECEIVE]);
    ok &= tried("take gave it:", lacked[TAKE]);
    for (uint32_t clause = FIRST_CLAUSE; clause < CLAUSES; clause++) {
        char what[48];
        if (clause == UNBROKEN) snprintf(what, sizeof what, "partitions changed, and no damage:");
        else if (clause < BY_AT_LEAST) snprintf(what, sizeof what, "damage refused, S%u:", (unsigned)clause);
        else if (clause < BY_READ_SET) snprintf(what, sizeof what, "damage refused, S6, %s in a row:", bounds[clause - BY_AT_LEAST]);
        else snprintf(what, sizeof what, "damage refused, S6, an empty %s set:", clause == BY_READ_SET ? "read" : "take");
        ok &= tried(what, damaged[clause]);
    }
    for (uint32_t kind = 0; kind < 2; kind++)
        for (uint32_t m = 0; m < MEETINGS; m++) {
            char what[48];
            snprintf(what, sizeof what, "%s, %s:", bounds[kind], meetings[m]);
            ok &= tried(what, met[kind][m]);
        }
    for (uint32_t kind = PUT; kind < KINDS; kind++)
        for (uint32_t m = kind == PUT ? HELD_IN_PART : 0; m < SET_MEETINGS; m++) {
            char what[64];
            snprintf(what, sizeof what, "%s, %s:", names[kind], sets[m]);
            ok &= tried(what, by_sets[kind][m]);
        }
    ok &= all_lacked(names) & all_short(names) & all_without_0(names);
    ok &= tried("lengths of 2^32 and more, space:", long_space) & tried("roster:", long_roster) & tried("fields:", long_fields);
    ok &= tried("result, and found:", long_result) & tried("bit 63 in a roster:", bound_63);
    printf("most live rows %u%s\n", (unsigned)most_rows, most_rows == ROWS ? "" : " FAILED: never full");
    return ok && most_rows == ROWS;
}

int main(void)
{
    uint64_t *a = (uint64_t *)&proved, *b = (uint64_t *)&plain;
    seed = 42;
    for (uint32_t i = 0; i < LENT; i++) a[i] = b[i] = any64();
    for (uint32_t i = 0; i < GUARDS; i++) {
        proved.before[i] = plain.before[i] = guard(i);
        proved.between[i] = plain.between[i] = guard(GUARDS + i);
        proved.after[i] = plain.after[i] = guard(2 * GUARDS + i);
    }
    if (!all_calls() || !all_rows() || !all_tried()) return 1;
    printf("hash %08x%08x\n%u calls alike\n", (unsigned)(hash >> 32), (unsigned)hash, (unsigned)CALLS);
    return 0;
}
