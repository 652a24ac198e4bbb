/* The shared space in plain C, made as fast as we could: what the proved library is measured against.
   The space is 1809 words: the count of live rows, the partitions and then the keys that each of the eight parties holds, and
   128 rows of 14 words: the writer, the read pair, the take pair (a set of partitions and a key's place each), the field count and
   eight fields. Every call goes over every word of it (scan); for a look, receive or take the same pass finds the entry, unless
   the template has a bound: then another pass does (search).
   GNU C for little-endian machines. It keeps nothing outside the slices that it is lent. */
#include "plain.h"
#include <string.h>
#ifdef __SSE2__
#include <emmintrin.h>
#endif
#ifdef __thumb2__
#pragma GCC optimize("no-schedule-insns") /* it would part the two loads that make an ldrd */
#endif
#if __BYTE_ORDER__ != __ORDER_LITTLE_ENDIAN__
#error "matches() takes the first half of a word for its lower half"
#endif

enum { WORDS = 1809, FIRST = 17, ROW = 14, ROWS = 128, MOST = 16, FIELDS = 8 };
enum { READ = 1, TAKE = 3, COUNT = 5, FIELD = 6 }; /* where in a row its pairs, its count and its fields are */
#define WILDCARD (3ull << 32)
#define NEVER UINT32_MAX /* no writer, and no place of a name */
#define BOUNDED 1u /* said of a template; it's no refusal */
#define NOINLINE static __attribute__((noinline))
#define INLINE static inline __attribute__((always_inline))

INLINE uint32_t low(uint64_t w) { return (uint32_t)w; }
INLINE uint32_t high(uint64_t w) { return (uint32_t)(w >> 32); }

/* 1. What differs between the machines. */

/* Hints that emit nothing. HIDE: forget what x is, so don't hoist a load by it or merge a pointer's steps (they are part of
   ldmia and stmia). HERE: all of x is in registers by now, so load both halves at once (ldrd, ldmia) and keep the order. ASIDE: of
   x only comparisons are wanted, so keep it in a register of the upper eight (Cortex-M0+). */
#if defined __thumb__ && !defined __thumb2__
#define HIDE(x) __asm__("" : "+l"(x))
#define HIDE_NOW(x) __asm__ volatile("" : "+l"(x)) /* in each round of a loop */
#define HERE(x) __asm__("" : : "l"(x))
#define ASIDE(x) __asm__("" : "+h"(x))
#else
#define HIDE(x) __asm__("" : "+r"(x))
#define HIDE_NOW(x) HIDE(x)
#define HERE(x) __asm__("" : : "r"(x))
#define ASIDE(x) (void)0
#endif

/* How scan() loads a head word and tests sets and writer. A 64-bit machine does it with whole words. A 32-bit one loads the lower
   half, and gathers whatever has to be 0 in `highs`: where that isn't 0 sound_rights() decides. The upper half of a set is looked at
   only where the lower one is 0, and in a search where the template's set has something there. */
#if UINTPTR_MAX > UINT32_MAX
typedef uint64_t part;
#define LOAD(part, w) (part = (w))
#define UPPER(w) 0
#define TEST_READ_SET(set) do if (!(set)) return 0; while (0)
#define TEST_TAKE_SET(other, set) do if (!(set)) return 0; while (0)
#define TEST_WRITER(w) do if ((w) > 7) return 0; while (0)
#define CHARGE(w) charge[w]++
#else
typedef uint32_t part;
#define UPPER(w) high(w)
#define TEST_SETS(doubtful) do if (__builtin_expect(doubtful, 0) && !sound_sets(row)) return 0; while (0)
#define TEST_WRITER(w) (highs |= (w) >> 3)
#ifdef __thumb2__
#define LOAD(part, w) do { uint32_t h = high(w); part = low(w); BOTH_HERE(part, h); highs |= h; HERE(highs); } while (0)
#define BOTH_HERE(x, y) __asm__("" : : "r"(x), "r"(y))
#define TEST_READ_SET(set) (void)0
#define TEST_TAKE_SET(other, set) TEST_SETS((uint64_t)(other) * (set) == 0) /* both sets at once */
#else
#define LOAD(part, w) do { part = low(w); highs |= high(w); HERE(highs); } while (0)
#define TEST_READ_SET(set) TEST_SETS(!(set))
#define TEST_TAKE_SET(other, set) TEST_SETS(!(set))
#endif
/* The address of the byte is charge + w in the load and again in the store, not added up before. */
#define CHARGE(w) do { uint8_t *p = charge; HIDE_NOW(p); uint32_t n = p[w] + 1u; HIDE_NOW(p); p[w] = (uint8_t)n; } while (0)
#endif

/* Bit i of a word in memory. Cortex-M4 shifts a byte of it in fewer instructions than both halves. */
#ifdef __thumb2__
#define BIT(w, i) (((const uint8_t *)&(w))[(i) / 8] >> (i) % 8 & 1)
#else
#define BIT(w, i) ((w) >> (i) & 1)
#endif

/* clear: is each word of that many rows 0? clean: make them 0. close_up: move the rows behind `row` up to `live` a row down. */
#define SEVEN(DO, i) DO(i) DO(i + 1) DO(i + 2) DO(i + 3) DO(i + 4) DO(i + 5) DO(i + 6)
#define FOURTEEN(DO) SEVEN(DO, 0) SEVEN(DO, 7)
#define TWENTYEIGHT(DO) FOURTEEN(DO) SEVEN(DO, 14) SEVEN(DO, 21)
#ifdef __SSE2__
NOINLINE int clear(const uint64_t *p, uint32_t rows)
{
    if (!rows) return 1;
    int odd = (uintptr_t)p & 8; /* the pairs of words that are operands have to be 16-aligned */
    const __m128i *pair = (const __m128i *)(odd ? p + 1 : p + 2);
    __m128i all = odd ? _mm_cvtsi64_si128((long long)(p[0] | p[ROW * rows - 1])) : pair[-1];
#define GATHER(i) all = _mm_or_si128(all, pair[i]); __asm__("" : "+x"(all));
    GATHER(0) GATHER(1) GATHER(2) GATHER(3) GATHER(4) GATHER(5)
    pair += 6;
    for (rows--; rows % 4; rows--, pair += 7) { SEVEN(GATHER, 0) }
    for (; rows; rows -= 4, pair += 28) { TWENTYEIGHT(GATHER) }
    return _mm_movemask_epi8(_mm_cmpeq_epi8(all, _mm_setzero_si128())) == 0xffff;
}

INLINE void clean(uint64_t *p, uint32_t rows)
{
    const __m128i none = _mm_setzero_si128();
#define CLEAN(i) _mm_storeu_si128((__m128i *)p + i, none);
    for (; rows % 8; rows--, p += ROW) { SEVEN(CLEAN, 0) }
    for (; rows; rows -= 8, p += 8 * ROW) {
        TWENTYEIGHT(CLEAN) SEVEN(CLEAN, 28) SEVEN(CLEAN, 35) SEVEN(CLEAN, 42) SEVEN(CLEAN, 49)
    }
}

INLINE void close_up(uint64_t *row, const uint64_t *live)
{
    enum { PIECE = 36 * ROW }; /* glibc moves up to 4096 bytes by vectors, more as a string of bytes */
    for (; live - row > PIECE + ROW; row += PIECE) memmove(row, row + ROW, PIECE * sizeof *row);
    memmove(row, row + ROW, (size_t)((const char *)live - (const char *)(row + ROW)));
}
#else
NOINLINE int clear(const uint64_t *p, uint32_t rows)
{
    uint32_t all = 0;
#define GATHER(i) { uint64_t w = *p++; HIDE(p); HERE(w); all |= low(w); all |= high(w); HERE(all); }
    for (; rows % 4; rows--) { FOURTEEN(GATHER) }
    for (; rows; rows -= 4) { TWENTYEIGHT(GATHER) TWENTYEIGHT(GATHER) }
    return all == 0;
}

INLINE void clean(uint64_t *p, uint32_t rows)
{
    uint64_t none = 0;
    HIDE(none);
#define CLEAN(i) *p++ = none; HIDE(p);
    for (; rows % 4; rows--) { FOURTEEN(CLEAN) }
    for (; rows; rows -= 4) { TWENTYEIGHT(CLEAN) TWENTYEIGHT(CLEAN) }
}

INLINE void close_up(uint64_t *row, const uint64_t *live)
{
#ifdef __thumb2__
    struct eight { uint64_t word[8]; }; /* up to 64 bytes are copied by ldm and stm of four registers */
    struct six { uint64_t word[6]; };
    for (; row + ROW != live; row += ROW) {
        *(struct eight *)row = *(const struct eight *)(row + ROW);
        *(struct six *)(row + 8) = *(const struct six *)(row + ROW + 8);
    }
#else
    const uint64_t *from = row + ROW;
#define MOVE(i) *row++ = *from++; HIDE(row); HIDE(from);
    while (from != live) { FOURTEEN(MOVE) }
#endif
}
#endif

/* copy: 1 to 8 words. */
#if defined __thumb__ && !defined __thumb2__
NOINLINE void copy(uint64_t *to, const uint64_t *from, uint32_t n)
{
    do {
        *to++ = *from++;
        HIDE(to);
        HIDE(from);
    } while (--n);
}
#else
INLINE void copy(uint64_t *restrict to, const uint64_t *restrict from, uint32_t n)
{
    switch (n) {
    case 8: to[7] = from[7]; /* fall through */
    case 7: to[6] = from[6]; /* fall through */
    case 6: to[5] = from[5]; /* fall through */
    case 5: to[4] = from[4]; /* fall through */
    case 4: to[3] = from[3]; /* fall through */
    case 3: to[2] = from[2]; /* fall through */
    case 2: to[1] = from[1]; /* fall through */
    default: to[0] = from[0];
    }
}
#endif
#ifdef __SSE2__
#define COPY_EIGHT(to, from) memcpy(to, from, 8 * sizeof *(to)) /* by vectors */
#else
#define COPY_EIGHT(to, from) copy(to, from, 8)
#endif

/* A template, made ready field by field: start, then literal or wildcard for each, then finish. To matches() a bound is a
   wildcard. */
struct template {
    const uint64_t *space, *fields, *found;
    uint64_t set;
    uint32_t count, key; /* the co-key's place */
    uint32_t bound; /* a field that is one, if any is */
#ifdef __SSE2__
    union { uint64_t word[FIELDS]; __m128i pair[FIELDS / 2]; } field, wild;
};

INLINE void start(struct template *t, int at)
{
    (void)at;
    for (int i = 0; i < FIELDS / 2; i++) t->field.pair[i] = t->wild.pair[i] = _mm_setzero_si128();
}
INLINE void literal(struct template *t, uint32_t i, uint64_t w) { t->field.word[i] = w; }
INLINE void wildcard(struct template *t, uint32_t i) { t->wild.word[i] = UINT64_MAX; }
INLINE void finish(struct template *t) { (void)t; }

INLINE int matches(const struct template *t, const uint64_t *row, int at)
{
    if (low(row[at + 1]) != t->key || low(row[COUNT]) != t->count) return 0;
    __m128i all = _mm_set1_epi8(-1);
#pragma GCC unroll 4
    for (int i = 0; i < FIELDS / 2; i++) {
        __m128i pair = _mm_loadu_si128((const __m128i *)(row + FIELD + 2 * i));
        all = _mm_and_si128(all, _mm_or_si128(_mm_cmpeq_epi32(pair, t->field.pair[i]), t->wild.pair[i]));
    }
    return _mm_movemask_epi8(all) == 0xffff;
}
#else
    /* The lower halves to find: the place in the row in bytes (lower half) and the value (upper half). A wildcard has none.
       The last, at the writer, is never found. */
    uint64_t probe[2 + FIELDS + 1], *next;
};

INLINE void probe(struct template *t, uint32_t place, uint32_t value) { *t->next++ = (uint64_t)value << 32 | 8 * place; }
INLINE void start(struct template *t, int at)
{
    t->next = t->probe;
    probe(t, (uint32_t)at + 1, t->key);
    probe(t, COUNT, t->count);
}
INLINE void literal(struct template *t, uint32_t i, uint64_t w) { probe(t, FIELD + i, low(w)); }
INLINE void wildcard(struct template *t, uint32_t i) { (void)t, (void)i; }
INLINE void finish(struct template *t) { probe(t, 0, NEVER); }

/* Of a row whose lower halves match: does the whole? Wildcards and bounds are of the kinds from 3 on. */
NOINLINE int same(const uint64_t *fields, uint32_t count, const uint64_t *f)
{
    for (uint32_t i = 0; i < count; i++)
        if (fields[i] != f[i] && high(fields[i]) < 3) return 0;
    return 1;
}

INLINE int matches(const struct template *t, const uint64_t *row, int at)
{
    const uint64_t *p = t->probe;
    uint32_t place, half, value;
    (void)at;
    do {
#ifdef __thumb2__
        uint64_t both = *p++;
        HERE(both);
        place = low(both), value = high(both);
#else
        place = low(*p), value = high(*p), p++;
#endif
        memcpy(&half, __builtin_assume_aligned((const char *)row + place, 4), 4);
    } while (half == value);
    return place == 0 && same(t->fields, t->count, row + FIELD);
}
#endif

/* 2. Soundness, and with it the search. */

INLINE int sound_field(uint64_t w) { return high(w) == 0 || (high(w) <= 2 && low(w) <= 64 - high(w)); }

/* Every party holds key 0, and no bit 63 is set among the keys. Of the partitions nothing is asked. */
NOINLINE int sound_roster(const uint64_t *s)
{
    uint32_t keys = low(s[9]), tops = high(s[9]);
#pragma GCC unroll 7
    for (int i = 10; i < FIRST; i++) {
        keys &= low(s[i]);
        tops |= high(s[i]);
        HERE(keys);
        HERE(tops);
    }
    return (keys & ~tops) >> 31;
}

/* Of a row where `highs` isn't 0: is it because of rights among its fields? Its lower halves but those are tested already. */
NOINLINE int sound_rights(const uint64_t *row)
{
    if (row[0] > 7 || high(row[READ + 1]) | high(row[TAKE + 1]) | high(row[COUNT])) return 0;
    uint32_t count = low(row[COUNT]);
    const uint64_t *f = row + FIELD;
#pragma GCC unroll 4
    for (uint32_t i = 0; i < FIELDS; i += 2) {
        if (!(high(f[i]) | high(f[i + 1]))) continue; /* two messages */
        if (!sound_field(f[i]) || (high(f[i]) && i >= count)) return 0;
        if (!sound_field(f[i + 1]) || (high(f[i + 1]) && i + 1 >= count)) return 0;
    }
    return 1;
}

/* Of a row with a set whose lower half is 0. */
INLINE int sound_sets(const uint64_t *row)
{
    HIDE(row);
    return row[READ] && row[TAKE];
}

INLINE int sound_keys(const uint64_t *row)
{
    HIDE(row);
    return (part)row[READ + 1] <= 62 && (part)row[TAKE + 1] <= 62;
}

/* Of a row with fewer than eight fields: are the lower halves past them 0? */
INLINE int sound_rest(const uint64_t *row, part count)
{
    uint32_t rest = 0;
    HIDE(row);
    switch (count) {
    case 1: rest |= low(row[FIELD + 1]); /* fall through */
    case 2: rest |= low(row[FIELD + 2]); /* fall through */
    case 3: rest |= low(row[FIELD + 3]); /* fall through */
    case 4: rest |= low(row[FIELD + 4]); /* fall through */
    case 5: rest |= low(row[FIELD + 5]); /* fall through */
    case 6: rest |= low(row[FIELD + 6]); /* fall through */
    case 7: rest |= low(row[FIELD + 7]); return rest == 0;
    default: return 0;
    }
}

/* Every clause of soundness. The charges are bytes, each writer's rows. With a template (then at is READ or TAKE, else 0) it
   also finds the first row that matches; in_upper says whether the template's set has partitions in its upper half. */
INLINE int scan(const uint64_t *s, uint64_t *charges, struct template *t, int at, int in_upper)
{
    if (s[0] > ROWS || !sound_roster(s)) return 0;
    *charges = 0;
    uint8_t *charge = (uint8_t *)charges;
    part want = at ? (part)t->set : 0, want_upper = at && in_upper ? (part)UPPER(t->set) : 0;
    const uint64_t *row = s + FIRST, *live = row + ROW * low(s[0]);
    for (; row != live; row += ROW) {
        part writer, set, key, other, count;
        if (at) ASIDE(live); /* so that the template's set has one of the others */
        uint32_t highs = high(row[6]) | high(row[7]) | high(row[8]) | high(row[9]) | high(row[10]) | high(row[11])
            | high(row[12]) | high(row[13]);
        HERE(highs);
        set = (part)row[READ];
        TEST_READ_SET(set);
        LOAD(key, row[READ + 1]);
        other = (part)row[TAKE];
        TEST_TAKE_SET(set, other);
        if (at == TAKE) set = other;
        LOAD(other, row[TAKE + 1]);
        if ((key | other) > 62 && !sound_keys(row)) return 0; /* two good keys may make a 63 */
        LOAD(count, row[COUNT]);
        if (count != FIELDS && !sound_rest(row, count)) return 0;
        LOAD(writer, row[0]);
        TEST_WRITER(writer);
        if (highs) {
            if (!sound_rights(row)) return 0;
            HIDE(row); /* rather load the writer again here than keep it in every round */
            writer = (part)row[0];
        }
        CHARGE(writer);
        if (at && ((set & want) || (in_upper && (UPPER(row[at]) & want_upper))) && matches(t, row, at)) {
            t->found = row;
            want = want_upper = 0;
        }
    }
    if (at) s = t->space; /* rather than keep it in a register */
    if (!clear(row, ROWS - low(s[0]))) return 0;
    return !((*charges + 0x0101010101010101u * (127 - MOST)) & 0x8080808080808080u); /* at most 128 each, so no byte carries */
}

NOINLINE int sound(const uint64_t *s, uint64_t *charges) { return scan(s, charges, 0, 0, 0); }
NOINLINE int sound_read(struct template *t) { uint64_t charges; return scan(t->space, &charges, t, READ, 0); }
NOINLINE int sound_take(struct template *t) { uint64_t charges; return scan(t->space, &charges, t, TAKE, 0); }
NOINLINE int sound_read_upper(struct template *t) { uint64_t charges; return scan(t->space, &charges, t, READ, 1); }
NOINLINE int sound_take_upper(struct template *t) { uint64_t charges; return scan(t->space, &charges, t, TAKE, 1); }

/* 3. Bounds: at least, at most. */

INLINE int is_bound(uint64_t w) { return high(w) == 4 || high(w) == 5; }
INLINE int at_least(uint64_t w) { return high(w) == 4; }

/* Of a row that matches but for the bounds. A partition or a key is a word above every message. */
INLINE int within(const uint64_t *fields, uint32_t count, const uint64_t *f)
{
    for (uint32_t i = 0; i < count; i++) {
        if (!is_bound(fields[i])) continue;
        if (at_least(fields[i]) ? high(f[i]) || low(f[i]) < low(fields[i]) : f[i] > low(fields[i])) return 0;
    }
    return 1;
}

/* Finds the first row of a sound space that matches a template with bounds. One of them is tested first: most rows fail by it. */
NOINLINE void search(struct template *t, int at)
{
    for (uint32_t i = 0; i < t->count; i++)
        if (is_bound(t->fields[i])) wildcard(t, i);
    uint32_t place = FIELD + t->bound;
    uint64_t bound = t->fields[t->bound];
    const uint64_t *row = t->space + FIRST, *live = row + ROW * low(t->space[0]);
    for (;; row += ROW) {
        if (at_least(bound)) while (row != live && low(row[place]) < low(bound)) row += ROW;
        else while (row != live && low(row[place]) > low(bound)) row += ROW;
        if (row == live) return;
        if (row[at] & t->set && matches(t, row, at) && within(t->fields, t->count, row + FIELD)) break;
    }
    t->found = row;
}

/* 4. The calls. */

enum { OF_SET = 113, OF_KEY = 114, OF_FIELD = 107 }; /* where a name stands that isn't held */

INLINE int bad_pair(uint64_t set, int32_t key) { return !set || (uint32_t)key + 31 > 62; }

INLINE int key_held(const uint64_t *s, uint32_t party, int32_t key) { return BIT(s[9 + party], (uint32_t)(key + 31)); }

/* The refusal for a name of the pairs that isn't held, or 0: all sets come before the keys. A template has its key twice. */
INLINE uint32_t lacking(const uint64_t *s, uint32_t party, uint64_t sets, int32_t key, int32_t other)
{
    if (sets & ~s[1 + party]) return OF_SET;
    return key_held(s, party, key) && key_held(s, party, other) ? 0 : OF_KEY;
}

NOINLINE int rights_held(const uint64_t *s, uint32_t party, const uint64_t *f, uint32_t n)
{
    for (uint32_t i = 0; i < n; i++) {
        if (high(f[i]) == 1 && !BIT(s[1 + party], low(f[i]))) return 0;
        if (high(f[i]) == 2 && !BIT(s[9 + party], low(f[i]))) return 0;
    }
    return 1;
}

NOINLINE void gain(uint64_t *s, uint32_t party, const uint64_t *f, uint32_t n)
{
    for (uint32_t i = 0; i < n; i++) {
        if (high(f[i]) == 1) s[1 + party] |= 1ull << low(f[i]);
        if (high(f[i]) == 2) s[9 + party] |= 1ull << low(f[i]);
    }
}

uint32_t plain_open(uint64_t *restrict s, uint64_t len, const uint64_t *restrict roster, uint64_t roster_len)
{
    if (len != WORDS) return 101;
    if (roster_len != 16) return 109;
    uint64_t tops = 0;
#pragma GCC unroll 8
    for (int i = 8; i < 16; i++) tops |= roster[i];
    if (tops >> 63) return 109;
    s[0] = 0;
    COPY_EIGHT(s + 1, roster);
#pragma GCC unroll 8
    for (int i = 8; i < 16; i++) s[1 + i] = roster[i] | 1ull << 31;
    clean(s + FIRST, ROWS);
    return 0;
}

uint32_t plain_put(uint64_t *restrict s, uint64_t len, uint32_t party, uint64_t read_set, int32_t read_key,
                   uint64_t take_set, int32_t take_key, const uint64_t *restrict f, uint64_t n)
{
    uint64_t charges;
    if (len != WORDS || !sound(s, &charges)) return 101;
    if (party > 7) return 102;
    if (n < 1 || n > FIELDS) return 103;
    if (bad_pair(read_set, read_key) || bad_pair(take_set, take_key)) return 104;
    uint32_t count = low(n), kinds = 0;
    for (uint32_t i = 0; i < count; i++) {
        kinds |= high(f[i]);
        if (!sound_field(f[i])) return 105;
    }
    uint32_t refusal = lacking(s, party, read_set | take_set, read_key, take_key);
    if (refusal) return refusal;
    if (kinds && !rights_held(s, party, f, count)) return OF_FIELD;
    if (((uint8_t *)&charges)[party] >= MOST) return 108; /* always with 128 rows */
    uint64_t *row = s + FIRST + ROW * low(s[0]); /* all 0 as yet */
    row[0] = party;
    row[READ] = read_set;
    row[READ + 1] = (uint32_t)(read_key + 31);
    row[TAKE] = take_set;
    row[TAKE + 1] = (uint32_t)(take_key + 31);
    row[COUNT] = count;
    copy(row + FIELD, f, count);
    s[0] = low(s[0]) + 1;
    return 0;
}

/* Makes the template ready; the answer is the refusal but for 101, or 0, or BOUNDED. */
INLINE uint32_t prepare(struct template *t, const uint64_t *s, uint32_t party, uint64_t set, int32_t key,
                        const uint64_t *f, uint64_t n, uint64_t room, int at)
{
    if (party > 7) return 102;
    if (n < 1 || n > FIELDS) return 103;
    if (bad_pair(set, key)) return 104;
    t->space = s;
    t->fields = f;
    t->found = 0;
    t->count = low(n);
    t->set = set;
    t->key = (uint32_t)(31 - key);
    start(t, at);
    uint32_t kinds = 0;
    for (uint32_t i = 0; i < low(n); i++) {
        if (f[i] == WILDCARD) {
            wildcard(t, i);
            continue;
        }
        if (sound_field(f[i])) {
            kinds |= high(f[i]);
            literal(t, i, f[i]);
        } else if (is_bound(f[i])) {
            kinds |= 4;
            t->bound = i;
        } else return 105;
    }
    finish(t);
    uint32_t refusal = lacking(s, party, set, key, key);
    if (refusal) return refusal;
    if (!kinds) return room < n ? 106 : 0; /* by itself, so that the kinds are looked at once */
    if (kinds != 4 && !rights_held(s, party, f, low(n))) return OF_FIELD; /* not for bounds alone */
    if (room < n) return 106;
    return kinds >= 4 ? BOUNDED : 0;
}

/* Soundness first, then the search. */
NOINLINE uint32_t find_bounded(struct template *t, int at)
{
    uint64_t charges;
    if (!sound(t->space, &charges)) return 101;
    search(t, at);
    return 0;
}

/* Looks for the entry; the answer is the refusal, or 0. */
INLINE uint32_t find(struct template *t, const uint64_t *s, uint64_t len, uint32_t party, uint64_t set, int32_t key,
                     const uint64_t *f, uint64_t n, uint64_t room, int at)
{
    uint64_t charges;
    if (len != WORDS) return 101;
    uint32_t refusal = prepare(t, s, party, set, key, f, n, room, at);
    if (refusal == BOUNDED) return find_bounded(t, at);
    if (refusal) return sound(s, &charges) ? refusal : 101;
    if (UPPER(set)) return (at == READ ? sound_read_upper(t) : sound_take_upper(t)) ? 0 : 101;
    return (at == READ ? sound_read(t) : sound_take(t)) ? 0 : 101;
}

/* The entry's fields for the result, and the names in them for the party. */
INLINE void hand_over(const struct template *t, uint64_t *restrict s, uint32_t party, uint64_t *restrict result)
{
    const uint64_t *f = t->found + FIELD;
    uint32_t count = t->count, kinds = 0;
    for (uint32_t i = 0; i < count; i++) {
        kinds |= high(f[i]);
        result[i] = f[i];
    }
    if (kinds) gain(s, party, result, count);
}

INLINE void remove_row(uint64_t *s, uint64_t *row)
{
    uint64_t *live = s + FIRST + ROW * low(s[0]);
    close_up(row, live);
    clean(live - ROW, 1);
    s[0] = low(s[0]) - 1;
}

/* A look, receive or take, by the pair that it goes by and by whether it gives names. A look writes nothing to s. */
INLINE uint32_t seek(uint64_t *restrict s, uint64_t len, uint32_t party, uint64_t set, int32_t key,
                     const uint64_t *restrict f, uint64_t n, uint64_t *restrict result, uint64_t room, int at, int gives)
{
    struct template t;
    uint32_t refusal = find(&t, s, len, party, set, key, f, n, room, at);
    if (refusal || !t.found) return refusal;
    if (gives) hand_over(&t, s, party, result);
    else copy(result, t.found + FIELD, t.count);
    if (at == TAKE) remove_row(s, s + (t.found - s));
    return t.count;
}

uint32_t plain_look(const uint64_t *restrict s, uint64_t len, uint32_t party, uint64_t set, int32_t key,
                    const uint64_t *restrict f, uint64_t n, uint64_t *restrict result, uint64_t room)
{
    return seek((uint64_t *)s, len, party, set, key, f, n, result, room, READ, 0);
}

uint32_t plain_receive(uint64_t *restrict s, uint64_t len, uint32_t party, uint64_t set, int32_t key,
                       const uint64_t *restrict f, uint64_t n, uint64_t *restrict result, uint64_t room)
{
    return seek(s, len, party, set, key, f, n, result, room, READ, 1);
}

uint32_t plain_take(uint64_t *restrict s, uint64_t len, uint32_t party, uint64_t set, int32_t key,
                    const uint64_t *restrict f, uint64_t n, uint64_t *restrict result, uint64_t room)
{
    return seek(s, len, party, set, key, f, n, result, room, TAKE, 1);
}

/* 5. A roster from a file. A line that gives a right has one digit, p or k and at most two digits more, with a minus at most. So
   any other line is refused, and only then is it looked at whether it could be read. */

enum { LONGEST = 16384, NAMES = 16, KEYS = 8 * 64, KEY_0 = KEYS + 31 };
static const char names[] = "party kind name\n";

/* The words are built as one row of bits: 64 of partitions for each party, then 64 of keys for each. */
enum { PART_BITS = 8 * sizeof(part), PARTS = 16 * 64 / PART_BITS };

/* The first four bytes of a line with a party up to 7: the bit of its partition 0 or its key 0, else NEVER. */
INLINE uint32_t party_and_kind(const uint8_t *p)
{
#if defined __ARM_FEATURE_UNALIGNED || defined __SSE2__
    uint32_t four, party, digit_p = '0' | ' ' << 8 | 'p' << 16 | ' ' << 24, digit_k = '0' | ' ' << 8 | 'k' << 16 | ' ' << 24;
    memcpy(&four, p, 4);
    party = four - digit_p;
    if (party <= 7) return 64 * party;
    party = four - digit_k;
    return party <= 7 ? KEY_0 + 64 * party : NEVER;
#else
    uint32_t party = p[0] - '0';
    if (party > 7 || p[1] != ' ' || p[3] != ' ') return NEVER;
    return p[2] == 'p' ? 64 * party : p[2] == 'k' ? KEY_0 + 64 * party : NEVER;
#endif
}

/* The end of a number that can be read, else 0. */
static const uint8_t *number_end(const uint8_t *p)
{
    if (*p == '0') return p + 1;
    if ((uint32_t)*p - '0' > 9) return 0;
    while ((uint32_t)*p - '0' <= 9) p++;
    return p;
}

/* A line that gives no right: it can't be read, or a number is out of range. Every byte before the line feed is looked at before the
   next one, so none behind it is. */
NOINLINE uint32_t faulty(const uint8_t *p)
{
    p = number_end(p);
    if (!p || p[0] != ' ' || (p[1] != 'p' && p[1] != 'k') || p[2] != ' ') return 111;
    p += 3;
    if (*p == '-' && *++p == '0') return 111;
    p = number_end(p);
    return p && *p == '\n' ? 112 : 111;
}

uint32_t plain_read_roster(const uint8_t *restrict file, uint64_t len, uint64_t *restrict roster, uint64_t roster_len)
{
    if (roster_len != 16) return 109; /* before the file is looked at */
    if (len > LONGEST || len < NAMES || memcmp(file, names, NAMES)) return 110;
    part parts[PARTS] = {0};
    const uint8_t *p = file + NAMES, *end = file + low(len);
    while (end[-1] != '\n') end--; /* the lines before come first; so none is read past its line feed */
    while (end - p >= 4) {
        const uint8_t *line = p;
        uint32_t at = party_and_kind(p), minus = 0, number, digit;
        if (at == NEVER) return faulty(line);
        p += 4;
        number = *p++ - '0';
        if (at >= KEYS && number == (uint32_t)'-' - '0') minus = 1, number = *p++ - '0';
        if (number > 9) return faulty(line);
        digit = *p++ - '0';
        if (digit <= 9 && number) number = 10 * number + digit, digit = *p++ - '0';
        if (digit != (uint32_t)'\n' - '0') return faulty(line);
        if (number > (at < KEYS ? 63 : 31)) return 112;
        if (minus && number == 0) return 111;
        at = minus ? at - number : at + number;
        parts[at / PART_BITS] |= (part)1 << at % PART_BITS;
    }
    if (p != file + low(len)) return 111; /* what is too short, or has no line feed */
    memcpy(roster, parts, sizeof parts);
    return 0;
}

/* 6. A start order. Row b is a byte with a bit for each party that comes before party b. They are a word, or two halves of four. */

enum { PARTIES = 8, MOST_PAIRS = 64, IN_PART = sizeof(part), ROW_PARTS = PARTIES / IN_PART };
#define EACH(byte) ((part)0x0101010101010101u * (byte)) /* that in every row */
static const uint8_t bit[PARTIES] = {1, 2, 4, 8, 16, 32, 64, 128};
union rows {
    part four[ROW_PARTS];
    uint8_t row[PARTIES + 1]; /* the last is 0 and ends a search */
};
#if defined __thumb__ && !defined __thumb2__
#define STEP NOINLINE /* so that each step has all of the lower eight registers */
#else
#define STEP INLINE
#endif

/* The answer for a circle, by the parties that are left. Party by party, whoever waits for it also waits for all that it waits for.
   In the end those who lie on a circle, and no others, wait for themselves. */
NOINLINE uint32_t circle(const union rows *rows, uint8_t left)
{
    part four[ROW_PARTS];
#pragma GCC unroll 2
    for (int i = 0; i < ROW_PARTS; i++) four[i] = rows->four[i] & EACH(left);
#pragma GCC unroll 8
    for (int p = 0; p < PARTIES; p++) {
        part row = (uint8_t)(four[p / IN_PART] >> p % IN_PART * 8);
#pragma GCC unroll 2
        for (int i = 0; i < ROW_PARTS; i++) four[i] |= (four[i] >> p & EACH(1)) * row;
    }
#pragma GCC unroll 8
    for (uint32_t p = 0; p < PARTIES - 1; p++)
        if (four[p / IN_PART] >> (p % IN_PART * 8 + p) & 1) return p + 1;
    return PARTIES;
}

/* Places the parties and writes their order; the answer is 0, or that for a circle. */
#if UINTPTR_MAX > UINT32_MAX
INLINE uint32_t place(union rows *rows, uint64_t *restrict result)
{
#define EIGHT(DO) {DO(0), DO(1), DO(2), DO(3), DO(4), DO(5), DO(6), DO(7)}
#define FOR_NOBODY(p) EACH(1) << p
#define BUT_ITSELF(p) ~(1ull << 9 * p)
    static const uint64_t for_nobody[PARTIES] = EIGHT(FOR_NOBODY), but_itself[PARTIES] = EIGHT(BUT_ITSELF);
    uint64_t free = ~rows->four[0], at[PARTIES]; /* a byte of 255 is a party that waits for nobody */
#pragma GCC unroll 8
    for (int i = 0; i < PARTIES; i++) {
        uint64_t tops = ~(free + EACH(1)) & free & EACH(128); /* the lowest is the top bit of the first such byte */
        if (!tops) return circle(rows, 255);
        at[i] = (uint64_t)__builtin_ctzll(tops); /* 8 * p + 7 */
        free |= *(const uint64_t *)((const char *)for_nobody + at[i] - 7);
        free &= *(const uint64_t *)((const char *)but_itself + at[i] - 7); /* so it isn't placed again */
    }
    for (int i = 0; i < PARTIES; i++) result[i] = at[i] / 8;
    return 0;
}
#else
/* The smallest party that waits for none of those who are left, or PARTIES. For Cortex-M4 each byte of `left` has them. */
#ifdef __thumb2__
#define TOPS(four) (((four) - EACH(1)) & ~(four) & EACH(128)) /* the lowest is the top bit of the first byte of 0 */
INLINE uint32_t first_free(const uint8_t *row, uint32_t left)
{
    const uint32_t *four = __builtin_assume_aligned(row, 4);
    uint32_t tops = TOPS(four[0] & left);
    if (tops) return (uint32_t)__builtin_ctz(tops) / 8;
    tops = TOPS(four[1] & left);
    return tops ? 4 + (uint32_t)__builtin_ctz(tops) / 8 : PARTIES;
}
#define TAKE_OUT(p) do { left &= ~(ones << p); HIDE(left); } while (0)
#else
INLINE uint32_t first_free(const uint8_t *row, uint32_t left)
{
    uint32_t p = 0;
    while (row[p] & left) p++;
    return p;
}
#define TAKE_OUT(p) (left -= bits[p])
#endif

STEP uint32_t place(union rows *rows, uint64_t *restrict result)
{
    uint8_t order[PARTIES], *row = rows->row;
    const uint8_t *bits = bit;
    uint32_t left = EACH(255), ones = EACH(1);
    HIDE(row);
    HIDE(bits);
    HIDE(ones);
#pragma GCC unroll 8
    for (int i = 0; i < PARTIES; i++) {
        uint32_t p = first_free(row, left);
        if (p == PARTIES) return circle(rows, (uint8_t)left);
        TAKE_OUT(p);
        order[i] = (uint8_t)p;
        row[p] = 255; /* so it isn't placed again */
    }
#pragma GCC unroll 8
    for (int i = 0; i < PARTIES; i++) {
        *result++ = order[i];
        HIDE(result);
    }
    return 0;
}
#endif

#if UINTPTR_MAX > UINT32_MAX
#define GATHER_PAIR { all |= *p++; }
#define ABOVE_7 ~(7ull << 32 | 7)
/* two loads, rather than one and a shift */
INLINE uint32_t half(const uint64_t *p, int i) { uint32_t h; memcpy(&h, (const char *)p + 4 * i, 4); return h; }
#define BEFORE(w) half(&(w), 1)
#define AFTER(w) half(&(w), 0)
#else
#define GATHER_PAIR { uint64_t w = *p++; HIDE(p); HERE(w); all |= high(w); all |= low(w); HERE(all); }
#define ABOVE_7 ~7u
#define BEFORE(w) high(w)
#define AFTER(w) low(w)
#endif
STEP int sound_pairs(const uint64_t *p, uint32_t n)
{
    part all = 0;
    for (; n % 4; n--) GATHER_PAIR
    for (; n; n -= 4) { GATHER_PAIR GATHER_PAIR GATHER_PAIR GATHER_PAIR }
    return !(all & ABOVE_7);
}

STEP void fill(union rows *rows, const uint64_t *p, uint32_t n)
{
    uint8_t *row = rows->row;
    const uint8_t *bits = bit;
    HIDE(row);
    HIDE(bits);
#define ADD_PAIR(i) row[AFTER(p[i])] |= bits[BEFORE(p[i])];
    for (; n % 4; n--, p++) ADD_PAIR(0)
    for (; n; n -= 4, p += 4) { ADD_PAIR(0) ADD_PAIR(1) ADD_PAIR(2) ADD_PAIR(3) }
}

uint32_t plain_start_order(const uint64_t *restrict pairs, uint64_t n, uint64_t *restrict result, uint64_t len)
{
    if (n > MOST_PAIRS || len < PARTIES) return 115;
    if (!sound_pairs(pairs, low(n))) return 116;
    union rows rows;
    for (int i = 0; i < ROW_PARTS; i++) rows.four[i] = 0;
    rows.row[PARTIES] = 0;
    fill(&rows, pairs, low(n));
    return place(&rows, result);
}
