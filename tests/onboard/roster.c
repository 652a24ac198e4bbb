/* The reading of a roster by the proved library against plain C, file by file, on the machine that this runs on: the answer, the 16
   words, the file, and guards around all of it. Where a file was made to be good, or has one faulty line that was made to be so, the
   answer and the words are also held to what it was made for. Prints how often each was seen and a hash of the whole sequence, which
   is the same on every machine. Ends with status 1 where the two differ, or where something was never tried. */
#include "plain.h"
#include "random.h"
#include "space.h"
#include "tried.h"
#include <stdio.h>
#include <string.h>

#ifndef FILES
#define FILES 60000
#endif
enum { GUARDS = 8, LONG_EVERY = 300, ROOM = SPACE_ROSTER_FILE_BYTES + 4096, UNKNOWN = 1000, ANSWERS = 113 };

/* The file begins at any byte of a word. What stands around it looks like more of it, so that a look behind its end is felt. */
static uint8_t around[ROOM + 8], kept[ROOM + 8], *file;
static uint32_t size;
static struct lent {
    uint64_t before[GUARDS], roster[SPACE_ROSTER_WORDS], after[GUARDS];
} proved, plain, earlier;
static uint64_t meant[SPACE_ROSTER_WORDS], hash = 0xcbf29ce484222325u;

static void hash_in(uint64_t word) { hash = (hash ^ word) * 0x100000001b3u; }

/* 1. Files. The order of evaluation is left open within an expression of C, so no expression here has two numbers whose order matters. */

static void byte(uint32_t b) { file[size++] = (uint8_t)b; }

static void decimal(uint64_t n)
{
    if (n > 9) decimal(n / 10);
    byte('0' + (uint32_t)(n % 10));
}

static void digits(const char *text)
{
    while (*text) byte((uint8_t)*text++);
}

/* Decimal digits of 2^bits + n, for an n up to 43. */
static void wrapping(uint32_t bits, uint32_t n)
{
    if (bits < 64) decimal((UINT64_C(1) << bits) + n);
    else if (bits == 64) digits("184467440737095516"), decimal(16 + n);
    else digits("3402823669209384634633746074317682114"), decimal(56 + n); /* 128 */
}

/* A number of 20 to 60 digits, or of some thousand. */
static void huge(void)
{
    uint32_t more = 19 + (seldom(60) ? 1000 + below(2000) : below(41));
    byte('1' + below(9));
    while (more--) byte('0' + below(10));
}

/* A piece of a line: a capital letter stands for numbers of a sort, any other byte for itself. */
static void piece(char c)
{
    uint32_t either = seldom(2), small = below(8);
    switch (c) {
    case 'P': decimal(small); break; /* a party */
    case 'B': decimal(8 + below(either ? 3 : 1000)); break;
    case 'N': decimal(below(64)); break; /* a partition */
    case 'C': decimal(64 + below(either ? 3 : 1000)); break;
    case 'K': decimal(below(32)); break; /* a key */
    case 'D': decimal(32 + below(either ? 3 : 1000)); break;
    case 'M': decimal(1 + below(31)); break; /* both, and not 0 */
    case 'E': wrapping(either ? 8 : 16, small); break;
    case 'W': wrapping(either ? 31 : 32, small); break;
    case 'X': wrapping(either ? 63 : 64, small); break;
    case 'Y': wrapping(128, small); break;
    case 'H': huge(); break;
    default: byte((uint8_t)c);
    }
}

static const struct fault {
    const char *line;
    uint32_t answer;
} faults[] = {
    {"P p C\n", 112}, {"P k D\n", 112}, {"P k -D\n", 112}, {"B p N\n", 112}, {"B k -M\n", 112}, {"P p -M\n", 112}, {"B p -C\n", 112},
    {"P p E\n", 112}, {"P p W\n", 112}, {"P p X\n", 112}, {"P p Y\n", 112}, {"P p H\n", 112}, {"P p -W\n", 112}, {"P p -X\n", 112},
    {"P k E\n", 112}, {"P k W\n", 112}, {"P k X\n", 112}, {"P k Y\n", 112}, {"P k H\n", 112}, {"P k -W\n", 112}, {"P k -X\n", 112},
    {"P k -Y\n", 112}, {"P k -H\n", 112}, {"E p N\n", 112}, {"W p N\n", 112}, {"X p N\n", 112}, {"Y k K\n", 112}, {"H k -M\n", 112},
    {"P p 0N\n", 111}, {"P k 0K\n", 111}, {"0P p N\n", 111}, {"P k -0\n", 111}, {"P p -0\n", 111}, {"P k -0M\n", 111}, {"P k --M\n", 111},
    {"P k +M\n", 111}, {"+P p N\n", 111}, {"-P p N\n", 111}, {"-0 p N\n", 111}, {"P q N\n", 111}, {"P  N\n", 111}, {"P pk N\n", 111},
    {"P N p\n", 111}, {"P p N N\n", 111}, {"P p\n", 111}, {"P p \n", 111}, {"P k -\n", 111}, {"P\n", 111}, {" \n", 111}, {"  \n", 111},
    {"\n", 111}, {"P  p N\n", 111}, {"P p  N\n", 111}, {" P p N\n", 111}, {"P p N \n", 111}, {"P\tp N\n", 111}, {"P p\tN\n", 111},
    {"P p N\t\n", 111}, {"P p N\r\n", 111}, {"P p Nx\n", 111}, {"P p x\n", 111}, {"x p N\n", 111}, {" p N\n", 111}, {"P k M-\n", 111},
    /* out of range too, but they can't be read */
    {"B p 0M\n", 111}, {"B q C\n", 111}, {"B p Cx\n", 111}, {"H k H.\n", 111}, {"P p H \n", 111}, {"0B k D\n", 111}, {"B k -0\n", 111},
    {"P p N/\n", 111}, {"P p :N\n", 111}, {"party kind name\n", 111},
};
enum { FAULTS = sizeof faults / sizeof *faults };
static uint32_t faulted[FAULTS];

/* A line that gives a right, of that many bytes with its line feed (6, 7 or 8). The header's helpers say what it gives. */
static void a_right(uint32_t bytes)
{
    uint32_t party = below(8), key = bytes == 8 || seldom(2), minus = bytes == 8 || (key && bytes == 7 && seldom(2));
    uint32_t two = bytes - minus == 7, number = two ? 10 + below(key ? 22 : 54) : minus + below(10 - minus);
    piece((char)('0' + party)), byte(' '), byte(key ? 'k' : 'p'), byte(' ');
    if (minus) byte('-');
    decimal(number);
    byte('\n');
    if (key) space_give_key(meant, party, minus ? -(int32_t)number : (int32_t)number);
    else space_give_partition(meant, party, number);
}

/* Rights, some of them once more, up to that many bytes. */
static void some_rights(uint32_t most)
{
    uint32_t from = size, lines = below(14);
    while (lines-- && size - from + 16 < most) {
        uint32_t start = size;
        a_right(6 + below(3));
        if (seldom(8)) {
            uint32_t length = size - start;
            memcpy(file + size, file + start, length);
            size += length;
        }
    }
}

/* Rights of exactly that many bytes, 40 at least. */
static void rights_of(uint32_t bytes)
{
    uint32_t end = size + bytes;
    while (end - size > 40) a_right(6 + below(3));
    for (uint32_t lines = 5; lines; lines--) a_right((end - size) / lines);
}

static uint32_t a_fault(void)
{
    uint32_t which = below(FAULTS);
    for (const char *c = faults[which].line; *c; c++) piece(*c);
    faulted[which]++;
    return faults[which].answer;
}

/* A byte changed, dropped, doubled or inserted, or the rest cut off, at any of the first bytes. */
static void damage(uint32_t first)
{
    static const char likely[] = "0123456789 -+pk\n\r\tparty kind name";
    uint32_t at = below(first), how = below(5);
    uint8_t b = seldom(4) ? (uint8_t)any64() : (uint8_t)likely[below(sizeof likely - 1)];
    if (how == 0) file[at] = b;
    else if (how == 1) memmove(file + at, file + at + 1, --size - at);
    else if (how == 4) size = at;
    else memmove(file + at + 1, file + at, size++ - at), file[at] = how == 2 ? file[at] : b;
}

enum { GOOD, FAULTY, TWO_FAULTS, NO_LINE_FEED, WRONG_NAMES, DAMAGED, LONG, SORTS };
static const char *const sorts[] = {"good", "with a faulty line", "with two", "without a line feed", "with other names", "damaged", "long"};
static uint32_t answers[SORTS][ANSWERS], long_roster, long_file, other_rosters, exactly_longest, one_more, empty, no_rights, rights_kept;

/* A file of a sort. The answer is the one that it is made for, or UNKNOWN. */
static uint32_t a_file(uint32_t sort)
{
    uint32_t answer = 0;
    size = 0;
    memset(meant, 0, sizeof meant);
    digits("party kind name\n");
    if (sort == LONG) { /* of 16,384 bytes, or some less or more, now and then with a fault at the end */
        uint32_t bytes = SPACE_ROSTER_FILE_BYTES + (seldom(2) ? below(2) : below(9) - 4);
        rights_of(bytes - size);
        if (bytes <= SPACE_ROSTER_FILE_BYTES && seldom(3)) return file[size - 1] = '9', 111;
        return bytes > SPACE_ROSTER_FILE_BYTES ? 110 : 0;
    }
    some_rights(2000);
    if (sort == FAULTY || sort == TWO_FAULTS || (sort == NO_LINE_FEED && seldom(3))) answer = a_fault();
    if (sort == TWO_FAULTS) some_rights(2000), a_fault();
    if (sort == FAULTY || sort == TWO_FAULTS) some_rights(2000);
    if (sort == NO_LINE_FEED) {
        if (seldom(2)) a_right(6 + below(3)), size--;
        else a_fault(), size--;
        if (!answer && file[size - 1] != '\n') answer = 111; /* an empty line without its line feed is nothing */
    }
    if (sort == WRONG_NAMES) damage(16), answer = UNKNOWN;
    for (uint32_t n = sort == DAMAGED ? 1 + below(3) : 0; n && size; n--) damage(size), answer = UNKNOWN;
    return answer;
}

/* 2. Calls. */

static uint64_t guard(uint32_t at) { return 0x6A09E667F3BCC909u + at; }

/* What the words held before plays no part. */
static void earlier_words(void)
{
    uint32_t how = below(3);
    for (uint32_t i = 0; i < SPACE_ROSTER_WORDS; i++) earlier.roster[i] = how == 0 ? 0 : how == 1 ? UINT64_MAX : any64();
    for (uint32_t i = 0; i < GUARDS; i++) earlier.before[i] = guard(i), earlier.after[i] = guard(GUARDS + i);
    proved = plain = earlier;
}

/* what is wrong after a call, in a word; nothing where all is right */
static const char *wrong(uint32_t a, uint32_t b, uint32_t answer, uint32_t used)
{
    if (a != b || a >= ANSWERS) return "answer";
    if (memcmp(&proved, &plain, sizeof proved)) return "words";
    if (memcmp(around, kept, used)) return "file";
    if (memcmp(proved.before, earlier.before, sizeof proved.before) || memcmp(proved.after, earlier.after, sizeof proved.after)) return "guards";
    if (a && memcmp(&proved, &earlier, sizeof proved)) return "words of a refusal";
    if (answer != UNKNOWN && a != answer) return "not the answer that it was made for";
    if (answer == 0 && memcmp(proved.roster, meant, sizeof meant)) return "not the words that it was made for";
    return 0;
}

static int one_file(uint32_t number)
{
    uint32_t sort = number % LONG_EVERY ? below(LONG) : LONG;
    uint64_t file_len, roster_len = SPACE_ROSTER_WORDS;
    for (uint32_t i = 0; i < 8; i++) around[i] = (uint8_t)"1 p 5\n\n\n"[i];
    file = around + below(8);
    uint32_t answer = a_file(sort);
    for (uint32_t i = 0; i < 8; i++) file[size + i] = (uint8_t)"\n1 p 5\n\n"[i];
    file_len = size;
    uint64_t upper = 1 + below(9);
    upper <<= 32 + below(28);
    if (seldom(20)) file_len |= upper, answer = 110;
    if (seldom(20)) roster_len = seldom(2) ? below(19) : roster_len | upper;
    if (roster_len != SPACE_ROSTER_WORDS) answer = 109;
    earlier_words();
    uint32_t used = (uint32_t)(file - around) + size + 8;
    memcpy(kept, around, used);
    uint32_t a = space_read_roster(file, file_len, proved.roster, roster_len), b = plain_read_roster(file, file_len, plain.roster, roster_len);
    const char *what = wrong(a, b, answer, used);
    if (what) {
        printf("FAILED at file %u, %s: %s: %u and %u\n", (unsigned)number, sorts[sort], what, (unsigned)a, (unsigned)b);
        return 0;
    }
    answers[sort][a]++;
    long_roster += roster_len >> 32 != 0, other_rosters += a == 109 && !(roster_len >> 32);
    long_file += a == 110 && file_len >> 32;
    exactly_longest += a == 0 && size == SPACE_ROSTER_FILE_BYTES, one_more += a == 110 && file_len == SPACE_ROSTER_FILE_BYTES + 1;
    empty += a == 110 && file_len == 0, no_rights += a == 0 && size == 16;
    hash_in(a), hash_in(size);
    for (uint32_t i = 0; i < SPACE_ROSTER_WORDS; i++) {
        hash_in(proved.roster[i]);
        for (uint64_t w = a ? 0 : proved.roster[i]; w; w &= w - 1) rights_kept++;
    }
    return 1;
}

/* 3. What was seen. */

static int all_tried(void)
{
    /* what a sort of file must have been answered; 109 each of them */
    static const uint32_t wanted[SORTS][4] = {{0}, {111, 112}, {111, 112}, {0, 111, 112}, {110}, {0, 110, 111, 112}, {0, 110, 111}};
    uint32_t ok = 1, least = UINT32_MAX;
    for (uint32_t sort = 0; sort < SORTS; sort++) {
        printf("%s:", sorts[sort]);
        for (uint32_t n = 0; n < ANSWERS; n++)
            if (answers[sort][n]) printf(" %u x %u", (unsigned)n, (unsigned)answers[sort][n]);
        printf("\n");
        for (uint32_t i = 0; i < 4; i++)
            if (!answers[sort][wanted[sort][i]] && (i == 0 || wanted[sort][i]))
                ok = 0, printf("FAILED: never answered %u, %s\n", (unsigned)wanted[sort][i], sorts[sort]);
        if (!answers[sort][109]) ok = 0, printf("FAILED: never answered 109, %s\n", sorts[sort]);
    }
    for (uint32_t i = 0; i < FAULTS; i++) least = faulted[i] < least ? faulted[i] : least;
    printf("%u forms of faulty lines\n", (unsigned)FAULTS);
    ok &= tried("each of them at least", least) & tried("rights read:", rights_kept) & tried("no rights, read:", no_rights);
    ok &= tried("16,384 bytes, read:", exactly_longest) & tried("16,385 bytes, refused:", one_more) & tried("empty, refused:", empty);
    ok &= tried("other counts of words:", other_rosters) & tried("counts of words above 32 bits:", long_roster);
    ok &= tried("lengths of a file above 32 bits:", long_file);
    return ok;
}

int main(void)
{
    seed = 11;
    for (uint32_t n = 0; n < FILES; n++)
        if (!one_file(n)) return 1;
    if (!all_tried()) return 1;
    printf("hash %08x%08x\n%u files alike\n", (unsigned)(hash >> 32), (unsigned)hash, (unsigned)FILES);
    return 0;
}
