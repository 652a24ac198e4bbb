/* Many small workloads, each one call, for bench/compare: every count of live entries, every length and form of template, wherever the
   match is, each refusal, wherever a name stands that isn't held, also with a result that is too short, sets of several partitions, and
   openings. Prints or dumps a line for each: its name, what the call answers, and its instructions. Compiled with the header of the
   library that is counted.

   On a board, under `-icount shift=10`, an instruction takes 1,024 ns of the emulated clock and a tick of SysTick 40, so that the
   ticks of a single call give its instructions exactly. On the desk callgrind dumps its count under the workload's name. */
#include "space.h"
#include <stdio.h>
#include <string.h>
#ifndef __arm__
#include <valgrind/callgrind.h>
#endif

enum { WORDS = 1809, ROW = 14 };
#define ANY (3ull << 32)
#define BAD ((1ull << 32) + 64)
#define PARTITION(c) ((1ull << 32) + (c))
#define STORED_KEY(k) ((2ull << 32) + (k))
#define APART __attribute__((noinline, noclone))

/* A library from before look and receive has a read, which did what a receive does. Each of the two is compared with it. */
#ifdef GRID_READ
#define space_look space_read
#define space_receive space_read
#endif

/* A library from before sets has the number of a partition in a pair, and in a row. */
#ifdef GRID_NUMBERS
typedef uint32_t pair_set;
#define ONE(c) (c)
#define OUT_OF_RANGE 64
#else
typedef uint64_t pair_set;
#define ONE(c) (1ull << (c))
#define OUT_OF_RANGE 0
#endif

static uint64_t space[WORDS], kept[WORDS], roster[16], result[8], fields[8];
static struct { enum { LOOK, RECEIVE, TAKE, PUT, OPEN, NOTHING } kind; uint32_t party, count, room; pair_set set, take_set; int32_t key, take_key; } call;
static volatile uint32_t answer;

/* Called by their addresses, so that the way to a call is as long in every library. (The cast: to a look the space is const.) */
typedef uint32_t seek(uint64_t *, uint64_t, uint32_t, pair_set, int32_t, const uint64_t *, uint64_t, uint64_t *, uint64_t);
static seek *const seeks[] = {(seek *)space_look, space_receive, space_take};

APART void measured(void)
{
    if (call.kind <= TAKE) answer = seeks[call.kind](space, WORDS, call.party, call.set, call.key, fields, call.count, result, call.room);
    else if (call.kind == PUT) answer = space_put(space, WORDS, call.party, call.set, call.key, call.take_set, call.take_key, fields, call.count);
    else if (call.kind == OPEN) answer = space_open(space, WORDS, roster, call.count);
}

/* Field i of the entry in row r: messages, of which only the last differs from row to row; with names the first two are a partition
   and a key. */
static uint64_t field(uint32_t r, uint32_t i, uint32_t n, int names)
{
    if (i + 1 == n) return 100 + r;
    if (names && i == 0) return PARTITION(3);
    if (names && i == 1) return STORED_KEY(2);
    return i + 1;
}

/* Everybody holds partitions 0 to 7 and 50 and keys -31 to -24 and 0, all by the roster; party p writes 16 rows, under the defaults. */
static void prepare(uint32_t live, uint32_t n, int names)
{
    memset(kept, 0, sizeof kept);
    kept[0] = live;
    for (uint32_t p = 0; p < 8; p++) roster[p] = 255 | 1ull << 50, roster[8 + p] = 255 | 1ull << 31;
    memcpy(kept + 1, roster, sizeof roster);
    for (uint32_t r = 0; r < live; r++) {
        uint64_t row[ROW] = {r / 16, ONE(0), 31, ONE(0), 31, n};
        for (uint32_t i = 0; i < n; i++) row[6 + i] = field(r, i, n, names);
        memcpy(kept + 17 + ROW * r, row, sizeof row);
    }
}

static char name[100];
#ifdef __arm__
#define SYSTICK_CONTROL (*(volatile uint32_t *)0xE000E010)
#define SYSTICK_RELOAD (*(volatile uint32_t *)0xE000E014)
#define SYSTICK_NOW (*(volatile uint32_t *)0xE000E018)

static APART void count(void)
{
    static uint32_t around;
    memcpy(space, kept, sizeof space);
    SYSTICK_RELOAD = 0xffffff, SYSTICK_NOW = 0, SYSTICK_CONTROL = 5;
    uint32_t from = SYSTICK_NOW;
    measured();
    uint32_t instructions = (((from - SYSTICK_NOW) & 0xffffff) * 10 + 128) / 256;
    if (call.kind == NOTHING) around = instructions;
    else printf("%s|%u|%u\n", name, (unsigned)answer, (unsigned)(instructions - around));
}
#else
static void count(void)
{
    memcpy(space, kept, sizeof space);
    measured(); /* the first time also binds what the call links to */
    memcpy(space, kept, sizeof space);
    CALLGRIND_ZERO_STATS;
    CALLGRIND_TOGGLE_COLLECT;
    measured();
    CALLGRIND_TOGGLE_COLLECT;
    char line[120];
    snprintf(line, sizeof line, "%s|%u|", call.kind == NOTHING ? "" : name, (unsigned)answer);
    CALLGRIND_DUMP_STATS_AT(line);
}
#endif

static const char *const calls[] = {"look", "receive", "take", "put"};
static void called(uint32_t live, uint32_t n, const char *what)
{
    snprintf(name, sizeof name, "%s, %u live, %u fields, %s", calls[call.kind], (unsigned)live, (unsigned)n, what);
    count();
}

/* Templates that match the entry in row r, or none: which fields are wildcards. */
static const char *const forms[] = {"exact", "wildcards", "wildcards and the last", "every second", "the first and wildcards", "exact, none", "wildcards, none"};
enum { EXACT, WILD, LAST, SECOND, FIRST, EXACT_NONE, WILD_NONE, FORMS };
static int wild(uint32_t form, uint32_t i, uint32_t n)
{
    int last = i + 1 == n;
    return form == WILD || ((form == LAST || form == WILD_NONE) && !last) || (form == SECOND && !last && i % 2 == 0) || (form == FIRST && i > 0);
}

static void templates(uint32_t live, uint32_t n, int names)
{
    const uint32_t rows[] = {0, live / 2, live - 1};
    for (uint32_t form = 0; form < FORMS; form++)
        for (uint32_t place = 0; place < 3; place++) {
            int moves = form == EXACT || form == LAST || form == SECOND;
            if (place > 0 && (!moves || place >= live)) continue;
            for (uint32_t i = 0; i < n; i++) fields[i] = wild(form, i, n) ? ANY : field(rows[place], i, n, names);
            if (form >= EXACT_NONE) fields[n - 1] = 9999;
            char what[60];
            snprintf(what, sizeof what, "%s%s, row %u", forms[form], names ? " with names" : "", (unsigned)rows[place]);
            called(live, n, what);
        }
}

static void lacking(uint32_t live, uint32_t n, const char *what)
{
    char text[60];
    snprintf(text, sizeof text, "%s%s not held", call.room < n ? "a short result and " : "", what);
    called(live, n, text);
}

/* Nobody holds partition 40 and key 9. */
static void unheld(uint32_t live, uint32_t n)
{
    uint64_t word = fields[n - 1];
    call.set = ONE(40), lacking(live, n, "a partition");
    call.key = 9, lacking(live, n, "a partition and a key"), call.set = ONE(0);
    lacking(live, n, "a key"), call.key = 0;
    fields[n - 1] = PARTITION(40), lacking(live, n, "a partition in a field");
    fields[n - 1] = STORED_KEY(40), lacking(live, n, "a key in a field"), fields[n - 1] = word;
}

/* Rows that the pair or the count leaves at once, and refusals. */
static void misses(uint32_t live, uint32_t n)
{
    for (uint32_t i = 0; i < n; i++) fields[i] = i % 2 ? ANY : i + 1;
    unheld(live, n);
    call.set = ONE(3), called(live, n, "another partition"), call.set = ONE(0);
    call.key = -31, called(live, n, "another key"), call.key = 0;
    call.set = OUT_OF_RANGE, called(live, n, "refused by 4"), call.set = ONE(0);
    call.room = n - 1, called(live, n, "refused by 6"), unheld(live, n), call.room = 8;
    call.party = 8, called(live, n, "refused by 2"), call.party = 0;
    fields[n - 1] = BAD, called(live, n, "a bad word");
    for (uint32_t i = 0; i < 8; i++) fields[i] = ANY;
    call.count = n == 8 ? 7 : n + 1, called(live, n, "another count"), call.count = n;
}

static void bounds(uint32_t live, uint32_t n)
{
    for (uint32_t form = 0; form < 4; form++) {
        for (uint32_t i = 0; i < n; i++) fields[i] = form % 2 ? ANY : i + 1;
        fields[n - 1] = form < 2 ? (4ull << 32) + 99 + live : (5ull << 32) + 99;
        static const char *const whats[] = {"bound: exact, at least", "bound: wildcards, at least", "bound: exact, at most", "bound: wildcards, at most"};
        called(live, n, whats[form]);
    }
}

#ifndef GRID_NUMBERS
/* The rows get {1, 2, 3}, and one of them, or none, a fourth partition. */
static void prepare_sets(uint32_t live, uint32_t n, uint32_t r, uint64_t fourth)
{
    prepare(live, n, 0);
    for (uint32_t i = 0; i < live; i++) kept[17 + ROW * i + 1] = kept[17 + ROW * i + 3] = 14 | (i == r ? fourth : 0);
}

/* Sets of several partitions, with the fields exact and as wildcards. */
static void sets(uint32_t live, uint32_t n)
{
    const uint64_t low = ONE(4) | ONE(5) | ONE(6), both = ONE(5) | ONE(6) | ONE(50);
    for (uint32_t form = EXACT; form <= WILD; form++) {
        char what[60];
        for (uint32_t place = 0; place < 3 && place < live; place++) {
            uint32_t r = place == 0 ? 0 : place == 1 ? live / 2 : live - 1;
            for (uint32_t i = 0; i < n; i++) fields[i] = form == WILD ? ANY : field(r, i, n, 0);
            snprintf(what, sizeof what, "sets: one shared below 32, %s, row %u", forms[form], (unsigned)r);
            prepare_sets(live, n, r, ONE(4)), call.set = low, called(live, n, what);
            snprintf(what, sizeof what, "sets: one shared above 31, %s, row %u", forms[form], (unsigned)r);
            prepare_sets(live, n, r, ONE(50)), call.set = both, called(live, n, what);
            snprintf(what, sizeof what, "sets: all share two, %s, row %u", forms[form], (unsigned)r);
            prepare_sets(live, n, r, 0), call.set = ONE(1) | ONE(2) | ONE(50), called(live, n, what);
        }
        snprintf(what, sizeof what, "sets: none shared, %s", forms[form]);
        call.set = both, called(live, n, what);
    }
    call.set = ONE(1) | ONE(40), called(live, n, "sets: one of two not held"), call.set = ONE(0);
}
#endif

static void puts_(uint32_t live, uint32_t n)
{
    call.party = 7;
    for (uint32_t i = 0; i < n; i++) fields[i] = i;
    called(live, n, "messages");
    unheld(live, n);
    call.take_set = ONE(40), called(live, n, "a partition for taking not held");
    call.key = 9, called(live, n, "a key for reading and a partition for taking not held"), call.key = 0, call.take_set = ONE(0);
    call.take_key = 9, called(live, n, "a key for taking not held"), call.take_key = 0;
    fields[0] = PARTITION(5), called(live, n, "a name");
    fields[0] = ANY, called(live, n, "a bad word");
#ifndef GRID_NUMBERS
    fields[0] = 0, call.set = call.take_set = ONE(1) | ONE(2) | ONE(50), called(live, n, "sets: of three");
    call.set = call.take_set = ONE(1) | ONE(40), called(live, n, "sets: one of two not held");
#endif
}

static void opened(uint32_t live, const char *what)
{
    snprintf(name, sizeof name, "open, %u live, %s", (unsigned)live, what);
    count();
}

static void opens(uint32_t live)
{
    prepare(live, 8, 0);
    call.kind = OPEN, call.count = 16, opened(live, "all is given");
    roster[15] |= 1ull << 63, opened(live, "bit 63 in the last word");
    call.count = 15, opened(live, "15 words");
}

int main(void)
{
    static const uint32_t lives[] = {0, 1, 3, 16, 127, 128}, counts[] = {1, 2, 3, 4, 5, 8};
    call.kind = NOTHING, count();
    for (uint32_t l = 0; l < 6; l++) opens(lives[l]);
    for (uint32_t kind = LOOK; kind <= PUT; kind++)
        for (uint32_t l = 0; l < 6; l++)
            for (uint32_t c = 0; c < 6; c++) {
                uint32_t live = lives[l], n = counts[c];
                call.kind = kind, call.party = 0, call.count = n, call.room = 8;
                call.set = call.take_set = ONE(0), call.key = call.take_key = 0;
                prepare(live, kind == PUT ? 8 : n, 0);
                if (kind == PUT) { puts_(live, n); continue; }
                templates(live, n, 0), misses(live, n);
                if (live > 0) bounds(live, n);
                prepare(live, n, 1);
                if (n > 1) templates(live, n, 1);
#ifndef GRID_NUMBERS
                if (live > 0) sets(live, n);
#endif
            }
    return 0;
}
