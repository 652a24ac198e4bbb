/* Programs compiled with older headers: on a board with 32-bit pointers they are the wrong ones, and nothing at link time tells.

   The oldest had size_t for lengths. Every such call must be refused at once, by 101, with no word changed, on a space that is sound
   and open. Why it is: the library takes the space's length from two registers in which such a caller has passed other things, the
   roster's address and length, or the party and a partition. They make 1,809 only where a party is called 1,809. The reading of a
   roster is refused by 109, or by 110: it takes the count of words from the stack, and the file's length from the roster's address
   and count.

   The later ones had a partition's number, of 32 bits, where there is a set now. Looks, receives and takes must be refused by 103,
   with no word changed: the library takes the count of fields from where such a caller has passed the result's address. A put is not
   safe: the library takes the take key, the fields and their count from beyond what such a caller has passed, so what is left there
   decides. Here it is left there on purpose: a count that is refused, and then words that fit, with which the put is done under other
   names than the caller meant. */
#include "space.h"
#include "words.h"
#include <stddef.h>
#include <stdio.h>

uint32_t old_open(uint64_t *, size_t, const uint64_t *, size_t) __asm__("space_open");
uint32_t old_put(uint64_t *, size_t, uint32_t, uint32_t, int32_t, uint32_t, int32_t, const uint64_t *, size_t) __asm__("space_put");
uint32_t old_look(const uint64_t *, size_t, uint32_t, uint32_t, int32_t, const uint64_t *, size_t, uint64_t *, size_t)
    __asm__("space_look");
uint32_t old_receive(uint64_t *, size_t, uint32_t, uint32_t, int32_t, const uint64_t *, size_t, uint64_t *, size_t)
    __asm__("space_receive");
uint32_t old_take(uint64_t *, size_t, uint32_t, uint32_t, int32_t, const uint64_t *, size_t, uint64_t *, size_t) __asm__("space_take");
uint32_t old_read_roster(const uint8_t *, size_t, uint64_t *, size_t) __asm__("space_read_roster");

/* the last three of the put are what is left beyond its arguments */
uint32_t later_put(uint64_t *, uint64_t, uint32_t, uint32_t, int32_t, uint32_t, int32_t, const uint64_t *, uint64_t, int32_t,
                   const uint64_t *, uint64_t) __asm__("space_put");
uint32_t later_look(const uint64_t *, uint64_t, uint32_t, uint32_t, int32_t, const uint64_t *, uint64_t, uint64_t *, uint64_t)
    __asm__("space_look");
uint32_t later_receive(uint64_t *, uint64_t, uint32_t, uint32_t, int32_t, const uint64_t *, uint64_t, uint64_t *, uint64_t)
    __asm__("space_receive");
uint32_t later_take(uint64_t *, uint64_t, uint32_t, uint32_t, int32_t, const uint64_t *, uint64_t, uint64_t *, uint64_t)
    __asm__("space_take");

static uint64_t space[WORDS], before[WORDS], result[MOST_FIELDS], given[ROSTER];
static const uint64_t entry[1] = {7}, any[1] = {WILDCARD};

static int nothing_changed(void)
{
    for (uint32_t i = 0; i < WORDS; i++)
        if (space[i] != before[i]) return printf("FAILED: word %u changed\n", (unsigned)i), 0;
    for (uint32_t i = 0; i < MOST_FIELDS; i++)
        if (result[i]) return printf("FAILED: result word %u changed\n", (unsigned)i), 0;
    return 1;
}

int main(void)
{
    static const uint8_t file[] = "party kind name\n0 p 5\n";
    uint64_t roster[ROSTER];
    uint32_t by_101 = 0, oldest = 0, by_103 = 0, later = 0, answer = old_read_roster(file, sizeof file - 1, given, ROSTER);
    if (answer != 109 && answer != 110) return printf("FAILED: the reading of a roster answers %u\n", (unsigned)answer), 1;
    for (uint32_t i = 0; i < ROSTER; i++) {
        if (given[i]) return printf("FAILED: roster word %u changed\n", (unsigned)i), 1;
        roster[i] = UINT64_MAX >> (i >= PARTIES); /* nothing is refused for a name that isn't held */
    }
    if (space_open(space, WORDS, roster, ROSTER) || space_put(space, WORDS, 0, 1, 0, 1, 0, entry, 1)) return printf("FAILED: no space\n"), 1;
    for (uint32_t i = 0; i < WORDS; i++) before[i] = space[i];
    for (uint32_t party = 0; party < PARTIES; party++)
        for (uint32_t partition = 0; partition < 65; partition += 8, oldest += 5, later += 4) {
            by_101 += old_open(space, WORDS, roster, ROSTER) == 101;
            by_101 += old_put(space, WORDS, party, partition, 0, partition, 0, entry, 1) == 101;
            by_101 += old_look(space, WORDS, party, partition, 0, any, 1, result, MOST_FIELDS) == 101;
            by_101 += old_receive(space, WORDS, party, partition, 0, any, 1, result, MOST_FIELDS) == 101;
            by_101 += old_take(space, WORDS, party, partition, 0, any, 1, result, MOST_FIELDS) == 101;
            by_103 += later_look(space, WORDS, party, partition, 0, any, 1, result, MOST_FIELDS) == 103;
            by_103 += later_receive(space, WORDS, party, partition, 0, any, 1, result, MOST_FIELDS) == 103;
            by_103 += later_take(space, WORDS, party, partition, 0, any, 1, result, MOST_FIELDS) == 103;
            by_103 += later_put(space, WORDS, party, partition, 0, partition, 0, entry, 1, 0, entry, party % 2 ? 0 : 9) == 103;
        }
    if (!nothing_changed()) return 1;
    answer = later_put(space, WORDS, 0, 5, 4, 5, 4, entry, 1, 0, entry, 1);
    const uint64_t *row = space + row_at(1);
    if (answer || space[0] != 2 || row[READ_SET] == set_of(5) || row[TAKE_SET] == set_of(5))
        return printf("FAILED: a later header's put answers %u\n", (unsigned)answer), 1;
    printf("%u of %u calls refused by 101, %u of %u by 103, and a put done under other names\n", (unsigned)by_101, (unsigned)oldest,
           (unsigned)by_103, (unsigned)later);
    return by_101 != oldest || by_103 != later;
}
