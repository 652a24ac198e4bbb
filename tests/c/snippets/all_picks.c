/* block: uint64_t all_picks(const uint64_t *space
   slip: space_at_least(500) => space_at_least(501)
   slip: space_value(result[2]) + 1 => space_value(result[2]) + 2
   slip: space_at_least(next)} => space_at_most(next)}
   Picks of a channel, a sample count and a running number, walked through in two goes. */
#include "space.h"
#include <stdio.h>

static void use(const uint64_t *pick)
{
    printf("channel %lld, sample %lld, number %lld\n", (long long)space_value(pick[0]), (long long)space_value(pick[1]),
           (long long)space_value(pick[2]));
}

#include "block1"

static uint64_t space[SPACE_WORDS], roster[SPACE_ROSTER_WORDS], number;

static void put_pick(uint64_t channel, uint64_t sample)
{
    const uint64_t set = space_set(5), fields[3] = {space_message(channel), space_message(sample), space_message(++number)};
    if (space_put(space, SPACE_WORDS, 0, set, 4, set, 4, fields, 3)) printf("not put\n");
}

int main(void)
{
    space_give_partition(roster, 0, 5), space_give_partition(roster, 1, 5);
    space_give_key(roster, 0, 4), space_give_key(roster, 1, -4);
    printf("open %u\n", (unsigned)space_open(space, SPACE_WORDS, roster, SPACE_ROSTER_WORDS));
    put_pick(1, 400), put_pick(2, 700), put_pick(1, 500), put_pick(1, 501), put_pick(3, 499);
    uint64_t next = all_picks(space, 1, space_set(5), -4, 1);
    printf("next %u\n", (unsigned)next);
    put_pick(2, 520), put_pick(2, 120);
    next = all_picks(space, 1, space_set(5), -4, next);
    printf("next %u\n", (unsigned)next);
    return 0;
}
