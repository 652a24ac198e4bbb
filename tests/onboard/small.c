/* For an emulated Cortex-M0 with 16 KB of RAM, which has no instruction beyond its own: the example's calls, with a roster that is
   read from a file, and start orders, told by the status alone, since the space leaves no room for printf. The status is the number of
   the first answer that is wrong, or 0. */
#include "space.h"
#include "words.h"

static uint64_t space[WORDS], result[MOST_FIELDS];

int main(void)
{
    static const uint64_t right[ROSTER] = {1ull << 5, 1ull | 1ull << 5, [8] = 1ull << 35, 1ull << 27};
    static const uint8_t file[] = "party kind name\n0 p 5\n0 k 4\n1 k -4\n1 p 5\n1 p 0\n1 k -4\n1 p 64\n";
    uint64_t roster[ROSTER], five = set_of(5), with_0 = set_of(0) | five, with_9 = five | set_of(9);
    static const uint64_t entry[2] = {7, 120}, first[2] = {7, WILDCARD}, any[2] = {WILDCARD, WILDCARD}, key_4[1] = {KEY_FIELD + 35};
    /* 7, 3 and 1 in this order, then a chain from 1 back to 3, then a party that there isn't */
    static const uint64_t pairs[6] = {7ull << 32 | 3, 3ull << 32 | 1, 7ull << 32, 1ull << 32 | 6, 6ull << 32 | 3, 8};
    static const uint64_t order[PARTIES] = {2, 4, 5, 6, 7, 0, 3, 1};
    if (space_read_roster(file, sizeof file - 1, roster, ROSTER) != 112) return 9;
    if (space_read_roster(file, sizeof file - 8, roster, ROSTER) != 0) return 10;
    for (int i = 0; i < ROSTER; i++)
        if (roster[i] != right[i]) return 11;
    if (space_open(space, WORDS, roster, ROSTER) != 0) return 1;
    if (space_put(space, WORDS, 0, five, 4, five, 4, entry, 2) != 0) return 2;
    if (space_look(space, WORDS, 1, five, -4, first, 2, result, MOST_FIELDS) != 2 || result[1] != 120) return 3;
    if (space_look(space, WORDS, 1, with_0, -4, first, 2, result, MOST_FIELDS) != 2) return 15;
    if (space_look(space, WORDS, 1, with_9, -4, first, 2, result, MOST_FIELDS) != 113) return 16;
    if (space_take(space, WORDS, 0, five, -4, any, 2, result, MOST_FIELDS) != 114) return 4;
    if (space_put(space, WORDS, 1, five, -4, five, -4, key_4, 1) != 107) return 17;
    if (space_put(space, WORDS, 0, five, -4, with_9, 4, key_4, 1) != 113) return 18;
    if (space_put(space, WORDS, 0, 1, 0, 1, 0, entry, 2) != 113) return 23;
    if (space_put(space, WORDS, 0, five, 0, with_0, 0, entry, 2) != 113) return 24;
    for (int i = 0; i < SHARE; i++)
        if (space_put(space, WORDS, 1, 1, 0, 1, 0, any + 1, 1) != 105 || space_put(space, WORDS, 1, 1, 0, 1, 0, entry, 2) != 0) return 5;
    if (space_put(space, WORDS, 1, 1, 0, 1, 0, entry, 2) != 108) return 6;
    if (space_take(space, WORDS, 1, five, -4, any, 2, result, MOST_FIELDS) != 2) return 7;
    if (space_receive(space, WORDS, 1, five, -4, any, 2, result, MOST_FIELDS) != 0) return 8;
    if (space_put(space, WORDS, 0, five, 4, five, 4, key_4, 1) != 0) return 12;
    if (space_look(space, WORDS, 1, five, -4, any, 1, result, MOST_FIELDS) != 1 || !lacks(space, 1, key_4[0])) return 13;
    if (space_receive(space, WORDS, 1, five, -4, any, 1, result, MOST_FIELDS) != 1 || lacks(space, 1, key_4[0])) return 14;
    if (space_start_order(pairs, 3, result, PARTIES) != 0) return 19;
    for (int i = 0; i < PARTIES; i++)
        if (result[i] != order[i]) return 20;
    if (space_start_order(pairs, 5, result, PARTIES) != 2 || space_start_order(pairs, 6, result, PARTIES) != 116) return 21;
    if (space_start_order(pairs, 3, result, PARTIES - 1) != 115) return 22;
    return 0;
}
