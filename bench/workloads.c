/* The bench's workloads, on the desk and on the emulated boards. Linked once with the proved library and once with plain.c under
   the same names (see run). Each round is made on a space that is put back before it.

   On a board, under `-icount shift=0`, every instruction takes 1 ns of the emulated clock, and a tick of SysTick, at 25 MHz, is 40
   of them. Each workload runs 80 times from phases of the tick that differ, so that the sum of the ticks is twice the instructions.
   It prints a line for each workload: its letter, instructions, deepest stack in bytes.

   On the desk: `workloads LETTER count` makes one round in `measured`, for callgrind to count; `workloads LETTER time` prints
   nanoseconds a round; `workloads LETTER stack` prints the deepest stack in bytes. */
#include "space.h"
#include <stdio.h>
#include <stdlib.h>
#include <string.h>

#define PARTITION (1ull << 32)
#define KEY (2ull << 32)
#define ANY (3ull << 32)
#define AT_LEAST (4ull << 32)
#define AT_MOST (5ull << 32)
#define SET(c) (1ull << (c))
enum { WORDS = 1809, ROWS = 128, ROW = 14, PAINT = 0xA5 };
#define APART __attribute__((noinline, noclone))

static uint64_t space[WORDS], kept[WORDS], roster[16], result[8], given[16];
static uint8_t file[SPACE_ROSTER_FILE_BYTES];
static uint64_t file_len, pairs[SPACE_MOST_PAIRS + 1], pair_count;
static const uint64_t one[1] = {5}, any1[1] = {ANY}, any8[8] = {ANY, ANY, ANY, ANY, ANY, ANY, ANY, ANY};
static const uint64_t last[8] = {1, 2, 3, 4, 5, 6, 7, 227}, entry[8] = {1, 2, 3, 4, 5, 6, 7, 8};
static const uint64_t unheld[8] = {1, 2, 3, 4, 5, 6, 7, PARTITION + 40};
static const uint64_t least[8] = {ANY, ANY, ANY, ANY, ANY, ANY, ANY, AT_LEAST + 227};
static const uint64_t most[8] = {ANY, ANY, ANY, ANY, ANY, ANY, ANY, AT_MOST + 100};

/* The rows of the workloads with sets have OF_ROWS, but the last has partitions 4 and 50 besides: by each of these SHARING and UPPER
   match it alone. */
#define OF_ROWS (SET(1) | SET(2) | SET(3))
#define SHARING (SET(4) | SET(5) | SET(6))
#define UPPER (SET(5) | SET(6) | SET(50))
#define DISJOINT (SET(5) | SET(6) | SET(51))

static uint32_t nothing(void) { return 0; }
static uint32_t put_take(void) { return space_put(space, WORDS, 0, SET(0), 0, SET(0), 0, one, 1) + space_take(space, WORDS, 0, SET(0), 0, any1, 1, result, 8); }
static uint32_t look_last(void) { return space_look(space, WORDS, 0, SET(0), 0, last, 8, result, 8); }
static uint32_t take_oldest_put(void)
{
    uint32_t found = space_take(space, WORDS, 0, SET(0), 0, any8, 8, result, 8);
    return found + space_put(space, WORDS, 0, SET(0), 0, SET(0), 0, result, 8);
}
static uint32_t look_no_set(void) { return space_look(space, WORDS, 0, SET(40), 0, last, 8, result, 8); }
static uint32_t look_no_key(void) { return space_look(space, WORDS, 0, SET(0), 9, last, 8, result, 8); }
static uint32_t look_no_field(void) { return space_look(space, WORDS, 0, SET(0), 0, unheld, 8, result, 8); }
static uint32_t look_short(void) { return space_look(space, WORDS, 0, SET(0), 0, last, 8, result, 7); }
static uint32_t look_short_no_key(void) { return space_look(space, WORDS, 0, SET(0), 9, last, 8, result, 7); }
static uint32_t take_no_set(void) { return space_take(space, WORDS, 0, SET(40), 0, last, 8, result, 8); }
static uint32_t take_no_key(void) { return space_take(space, WORDS, 0, SET(0), 9, last, 8, result, 8); }
static uint32_t take_no_field(void) { return space_take(space, WORDS, 0, SET(0), 0, unheld, 8, result, 8); }
static uint32_t put_no_set(void) { return space_put(space, WORDS, 7, SET(0), 0, SET(40), 0, entry, 8); }
static uint32_t put_no_key(void) { return space_put(space, WORDS, 7, SET(0), 0, SET(0), 9, entry, 8); }
static uint32_t put_no_field(void) { return space_put(space, WORDS, 7, SET(0), 0, SET(0), 0, unheld, 8); }
static uint32_t open_(void) { return space_open(space, WORDS, roster, 16); }
static uint32_t put1(void) { return space_put(space, WORDS, 0, SET(0), 0, SET(0), 0, one, 1); }
static uint32_t look1(void) { return space_look(space, WORDS, 0, SET(0), 0, any1, 1, result, 8); }
static uint32_t put8(void) { return space_put(space, WORDS, 7, SET(0), 0, SET(0), 0, entry, 8); }
static uint32_t look_elsewhere(void) { return space_look(space, WORDS, 0, SET(3), 0, last, 8, result, 8); }
static uint32_t take_oldest(void) { return space_take(space, WORDS, 0, SET(0), 0, any8, 8, result, 8); }
static uint32_t take_last(void) { return space_take(space, WORDS, 0, SET(0), 0, last, 8, result, 8); }
static uint32_t look_at_least(void) { return space_look(space, WORDS, 0, SET(0), 0, least, 8, result, 8); }
static uint32_t look_at_most(void) { return space_look(space, WORDS, 0, SET(0), 0, most, 8, result, 8); }
static uint32_t receive_last(void) { return space_receive(space, WORDS, 0, SET(0), 0, last, 8, result, 8); }
static uint32_t look_names(void) { return space_look(space, WORDS, 0, SET(3), 0, any8, 8, result, 8); }
static uint32_t receive_names(void) { return space_receive(space, WORDS, 0, SET(3), 0, any8, 8, result, 8); }
static uint32_t look_by_shared(void) { return space_look(space, WORDS, 0, SHARING, 0, any8, 8, result, 8); }
static uint32_t look_by_upper(void) { return space_look(space, WORDS, 0, UPPER, 0, any8, 8, result, 8); }
static uint32_t look_disjoint(void) { return space_look(space, WORDS, 0, DISJOINT, 0, any8, 8, result, 8); }
static uint32_t take_by_shared(void) { return space_take(space, WORDS, 0, SHARING, 0, any8, 8, result, 8); }
static uint32_t put_under_sets(void) { return space_put(space, WORDS, 7, SHARING, 0, UPPER, 0, entry, 8); }
static uint32_t read_roster(void) { return space_read_roster(file, file_len, given, 16); }
static uint32_t start_order(void) { return space_start_order(pairs, pair_count, result, 8); }

/* live entries before the round, how their last messages go or what the last entry carries, and the sum of the answers; for the reading
   of a roster the card, for a start order the pairs */
static const struct workload {
    char letter;
    uint32_t live;
    enum { RISING, FALLING, NAMES, SETS, TWELVE, ALL, LONGEST, UNREADABLE, DIGITS, FREE, PLAN, UPWARD, DOWNWARD, TWICE, ROUND, LATE_ROUND,
           PARTY_8, PAIRS_65 } order;
    uint32_t sum, (*round)(void);
} workloads[] = {
    {'.', 0, RISING, 0, nothing},
    {'a', 0, RISING, 0 + 1, put_take},
    {'b', 128, RISING, 8, look_last},
    {'c', 128, RISING, 8 + 0, take_oldest_put},
    {'d', 128, RISING, 113, look_no_set},
    {'e', 128, RISING, 0, open_},
    {'f', 0, RISING, 0, put1},
    {'g', 0, RISING, 0, look1},
    {'h', 127, RISING, 0, put8},
    {'i', 128, RISING, 108, put8},
    {'j', 128, RISING, 0, look_elsewhere},
    {'k', 128, RISING, 8, take_oldest},
    {'l', 128, RISING, 8, take_last},
    {'m', 128, RISING, 8, look_at_least},
    {'n', 128, FALLING, 8, look_at_most},
    {'o', 128, RISING, 8, receive_last},
    {'p', 128, NAMES, 8, look_names},
    {'q', 128, NAMES, 8, receive_names},
    {'r', 0, TWELVE, 0, read_roster},
    {'s', 0, ALL, 0, read_roster},
    {'t', 0, LONGEST, 0, read_roster},
    {'u', 0, UNREADABLE, 111, read_roster},
    {'v', 0, DIGITS, 112, read_roster},
    {'w', 128, SETS, 8, look_by_shared},
    {'x', 128, SETS, 8, look_by_upper},
    {'y', 128, SETS, 0, look_disjoint},
    {'z', 128, SETS, 8, take_by_shared},
    {'A', 127, SETS, 0, put_under_sets},
    {'B', 128, RISING, 114, look_no_key},
    {'C', 128, RISING, 107, look_no_field},
    {'D', 128, RISING, 113, take_no_set},
    {'E', 128, RISING, 114, take_no_key},
    {'F', 128, RISING, 107, take_no_field},
    {'G', 127, RISING, 113, put_no_set},
    {'H', 127, RISING, 114, put_no_key},
    {'I', 127, RISING, 107, put_no_field},
    {'J', 0, FREE, 0, start_order},
    {'K', 0, PLAN, 0, start_order},
    {'L', 0, UPWARD, 0, start_order},
    {'M', 0, DOWNWARD, 0, start_order},
    {'N', 0, TWICE, 0, start_order},
    {'O', 0, ROUND, 1 + 0, start_order},
    {'P', 0, LATE_ROUND, 1 + 6, start_order},
    {'Q', 0, PARTY_8, 116, start_order},
    {'R', 0, PAIRS_65, 115, start_order},
    {'S', 128, RISING, 106, look_short},
    {'T', 128, RISING, 114, look_short_no_key},
};
enum { WORKLOADS = sizeof workloads / sizeof *workloads };

static void add(const char *text)
{
    memcpy(file + file_len, text, strlen(text));
    file_len += strlen(text);
}

static void add_right(int party, char kind, int name)
{
    char text[16];
    snprintf(text, sizeof text, "%d %c %d\n", party, kind, name);
    add(text);
}

/* The card of a workload: 12 rights; or all 1,016; or as many lines as 16,384 bytes hold; or 12 with a first line that can't be read; or
   one line of 16,384 bytes, whose number is out of range. */
static void prepare_card(const struct workload *w)
{
    file_len = 0;
    add(w->order == UNREADABLE ? "party kind name\n0 p 01\n" : "party kind name\n");
    if (w->order == ALL)
        for (int party = 0; party < 8; party++) {
            for (int partition = 0; partition <= 63; partition++) add_right(party, 'p', partition);
            for (int key = -31; key <= 31; key++) add_right(party, 'k', key);
        }
    else if (w->order == LONGEST)
        for (int party = 0; file_len < SPACE_ROSTER_FILE_BYTES; party = (party + 1) % 8) add_right(party, party % 2 ? 'k' : 'p', party);
    else if (w->order == DIGITS) {
        add("0 p 9");
        while (file_len < SPACE_ROSTER_FILE_BYTES - 1) file[file_len++] = '0';
        add("\n");
    } else
        add("0 p 1\n0 k 7\n0 k -7\n1 p 1\n1 k -7\n1 p 10\n1 k 3\n2 p 1\n2 k -7\n2 p 11\n2 k 31\n3 p 63\n");
}

static void add_pair(uint32_t a, uint32_t b) { pairs[pair_count++] = space_before(a, b); }

/* All pairs of two parties, the lower or the higher first. Where there are to be more, some of them again. */
static void add_all_pairs(int upward, uint64_t count)
{
    for (uint32_t a = 0; a < 8; a++)
        for (uint32_t b = a + 1; b < 8; b++) add_pair(upward ? a : b, upward ? b : a);
    for (uint32_t i = 0; pair_count < count; i++) pairs[pair_count++] = pairs[i];
}

/* The pairs of a workload: none; or six, of a station; or 28, after which the order is 0 to 7, or 7 to 0; or 64, the first 28 again and
   again; or a circle of all eight; or one of 6 and 7, with the 27 other pairs upward; or 64 of which the last has a party 8; or 65. */
static void prepare_pairs(const struct workload *w)
{
    pair_count = 0;
    if (w->order == PLAN) add_pair(0, 1), add_pair(0, 2), add_pair(1, 3), add_pair(2, 3), add_pair(5, 0), add_pair(5, 4);
    else if (w->order == UPWARD || w->order == DOWNWARD) add_all_pairs(w->order == UPWARD, 0);
    else if (w->order == TWICE || w->order == PARTY_8) add_all_pairs(1, SPACE_MOST_PAIRS);
    else if (w->order == ROUND)
        for (uint32_t a = 0; a < 8; a++) add_pair(a, (a + 1) % 8);
    else if (w->order == LATE_ROUND) add_all_pairs(1, 0), add_pair(7, 6);
    else if (w->order == PAIRS_65) add_all_pairs(1, SPACE_MOST_PAIRS + 1);
    if (w->order == PARTY_8) pairs[pair_count - 1] = space_before(7, 8);
}

/* The last row with eight names that nobody holds, in a partition of its own. */
static void prepare_names(uint64_t *row)
{
    row[1] = SET(3);
    for (uint32_t i = 0; i < 8; i++) row[6 + i] = (i % 2 ? KEY : PARTITION) + 40 + i;
}

/* Words written as they stand, so that nothing but the round calls the library. Party p writes 16 rows of 8 messages, under the
   defaults or sets; the last message goes from 100 up or from 227 down. Everybody holds partitions 0 to 7, for sets also 50 and 51,
   and keys -31 to -24 and 0. */
static void prepare(const struct workload *w)
{
    prepare_card(w);
    prepare_pairs(w);
    memset(kept, 0, sizeof kept);
    kept[0] = w->live;
    for (uint32_t i = 0; i < 8; i++) {
        roster[i] = roster[8 + i] = 255;
        kept[1 + i] = w->order == SETS ? 255 | SET(50) | SET(51) : 255;
        kept[9 + i] = 255 | 1ull << 31;
    }
    for (uint32_t r = 0; r < w->live; r++) {
        uint64_t set = w->order != SETS ? SET(0) : r + 1 < w->live ? OF_ROWS : OF_ROWS | SET(4) | SET(50);
        uint64_t row[ROW] = {r / 16, set, 31, set, 31, 8, 1, 2, 3, 4, 5, 6, 7, w->order == FALLING ? 227 - r : 100 + r};
        if (w->order == NAMES && r + 1 == w->live) prepare_names(row);
        memcpy(kept + 17 + ROW * r, row, sizeof row);
    }
}

static void put_back(void) { memcpy(space, kept, sizeof space); }
static volatile uint32_t answer;
APART void measured(const struct workload *w) { answer = w->round(); }

/* All of the stack below this frame is painted, the round is made, and the lowest byte that changed is looked for. */
static APART uint32_t deepest(const struct workload *w, unsigned char *from)
{
    unsigned char *top = __builtin_frame_address(0);
#ifdef __arm__
    __asm__ volatile("mov %0, sp" : "=r"(top));
#else
    __asm__ volatile("mov %%rsp, %0" : "=r"(top));
    from = top - 16384;
#endif
    put_back();
    for (volatile unsigned char *p = from; p < top; p++) *p = PAINT;
    w->round();
    volatile unsigned char *low = from;
    while (low < top && *low == PAINT) low++;
    return (uint32_t)(top - low);
}

#ifdef __arm__
#define SYSTICK_CONTROL (*(volatile uint32_t *)0xE000E010)
#define SYSTICK_RELOAD (*(volatile uint32_t *)0xE000E014)
#define SYSTICK_NOW (*(volatile uint32_t *)0xE000E018)
extern unsigned char end[];

static APART uint32_t instructions(const struct workload *w)
{
    uint32_t ticks = 0;
    for (uint32_t phase = 0; phase < 80; phase++) {
        put_back();
        for (volatile uint32_t i = 0; i < phase % 40; i++) continue;
        uint32_t from = SYSTICK_NOW;
        measured(w);
        ticks += (from - SYSTICK_NOW) & 0xffffff;
    }
    return ticks / 2;
}

/* 2,000 instructions, to see the count right */
static uint32_t two_thousand(void)
{
    uint32_t n = 1000;
    __asm__ volatile(".syntax unified\n1: subs %0, #1\n bne 1b\n" : "+l"(n) : : "cc");
    return n;
}

#ifndef TRACED
int main(void)
{
    static const struct workload known = {'=', 0, RISING, 0, two_thousand};
    SYSTICK_RELOAD = 0xffffff, SYSTICK_NOW = 0, SYSTICK_CONTROL = 5;
    prepare(&workloads[0]);
    uint32_t around = instructions(&workloads[0]);
    printf("= %u 0\n", (unsigned)(instructions(&known) - around));
    for (uint32_t i = 1; i < WORKLOADS; i++) {
        const struct workload *w = &workloads[i];
        prepare(w);
        uint32_t count = instructions(w) - around;
        if (answer != w->sum) return printf("FAILED: %c answers %u\n", w->letter, (unsigned)answer), 1;
        printf("%c %u %u\n", w->letter, (unsigned)count, (unsigned)deepest(w, end));
    }
    return 0;
}
#else
/* One workload between two marks, for a trace of every instruction. */
APART void mark(void) { __asm__ volatile("nop"); }
int main(void)
{
    for (uint32_t i = 0; i < WORKLOADS; i++)
        if (workloads[i].letter == TRACED) {
            prepare(&workloads[i]);
            put_back();
            mark();
            measured(&workloads[i]);
            mark();
        }
    return 0;
}
#endif
#else
#include <time.h>

static double nanoseconds(const struct workload *w, int rounds)
{
    struct timespec from, to;
    clock_gettime(CLOCK_MONOTONIC, &from);
    for (int i = 0; i < rounds; i++) put_back(), measured(w);
    clock_gettime(CLOCK_MONOTONIC, &to);
    return ((double)(to.tv_sec - from.tv_sec) * 1e9 + (double)(to.tv_nsec - from.tv_nsec)) / rounds;
}

int main(int argc, char **argv)
{
    if (argc != 3) return 2;
    for (uint32_t i = 0; i < WORKLOADS; i++) {
        const struct workload *w = &workloads[i];
        if (w->letter != argv[1][0]) continue;
        prepare(w);
        put_back();
        answer = w->round(); /* the first time also binds what the call links to */
        if (answer != w->sum) return printf("%c answers %u\n", w->letter, (unsigned)answer), 1;
        put_back();
        if (!strcmp(argv[2], "count")) measured(w);
        else if (!strcmp(argv[2], "stack")) printf("%u\n", (unsigned)deepest(w, 0));
        else printf("%.1f\n", nanoseconds(w, 3000) - nanoseconds(&workloads[0], 3000));
    }
    return 0;
}
#endif
