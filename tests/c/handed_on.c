/* What a host must not do: it hands a visitor's pointers on to the space. Party 0 has put a note for party 1; the visitor, party 7, is
   given partition 9 and nothing else. What it does here is outside every promise, since the words that a call is lent overlap. */
#include "space.h"
#include <stdio.h>

enum { VISITOR = 7, PARTITIONS = 1 + VISITOR, KEYS = 9 + VISITOR }; /* the words of the space that say what it holds */
static uint64_t space[SPACE_WORDS];

static uint32_t visitor_puts(const uint64_t *field)
{
    return space_put(space, SPACE_WORDS, VISITOR, space_set(9), 0, space_set(9), 0, field, 1);
}

static uint32_t visitor_looks(uint32_t partition, int32_t key, uint64_t *result)
{
    const uint64_t any[1] = {SPACE_WILDCARD};
    return space_look(space, SPACE_WORDS, VISITOR, space_set(partition), key, any, 1, result, 1);
}

int main(void)
{
    uint64_t roster[SPACE_ROSTER_WORDS] = {0}, result[1] = {0};
    const uint64_t note[1] = {space_message(480)}, ones[1] = {space_message(4294967295)}, any[1] = {SPACE_WILDCARD};
    space_give_partition(roster, 0, 5), space_give_key(roster, 0, 4);
    space_give_partition(roster, 1, 5), space_give_key(roster, 1, -4);
    space_give_partition(roster, VISITOR, 9);
    printf("open %u\n", (unsigned)space_open(space, SPACE_WORDS, roster, SPACE_ROSTER_WORDS));
    printf("party 0 puts a note under (5, 4): %u\n",
           (unsigned)space_put(space, SPACE_WORDS, 0, space_set(5), 4, space_set(5), 4, note, 1));
    printf("the visitor looks with (5, -4): %u\n", (unsigned)visitor_looks(5, -4, result));

    /* row 0 starts at word 17, and its fields 6 words later */
    printf("it puts with the fields at word 23: %u\n", (unsigned)visitor_puts(&space[23]));
    printf("it takes what it has put: %u", (unsigned)space_take(space, SPACE_WORDS, VISITOR, space_set(9), 0, any, 1, result, 1));
    printf(", %u\n", (unsigned)space_value(result[0]));

    printf("it puts message 4294967295: %u\n", (unsigned)visitor_puts(ones));
    printf("it looks for it with the result at word 8: %u\n", (unsigned)visitor_looks(9, 0, &space[PARTITIONS]));
    printf("it holds the partitions %llx\n", (unsigned long long)space[PARTITIONS]);
    printf("it looks for it with the result at word 16: %u\n", (unsigned)visitor_looks(9, 0, &space[KEYS]));
    printf("it holds the keys %llx\n", (unsigned long long)space[KEYS]);
    printf("the visitor looks with (5, -4): %u", (unsigned)visitor_looks(5, -4, result));
    printf(", %u\n", (unsigned)space_value(result[0]));
    printf("it takes it: %u\n", (unsigned)space_take(space, SPACE_WORDS, VISITOR, space_set(5), -4, any, 1, result, 1));
    printf("party 1 looks: %u\n", (unsigned)space_look(space, SPACE_WORDS, 1, space_set(5), -4, any, 1, result, 1));
    return 0;
}
