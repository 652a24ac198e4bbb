/* block: void give_what_is_common(uint64_t *roster)
   block: uint32_t tell_both(uint64_t *space
   slip: party < 2 ? 5 : 9 => party < 2 ? 9 : 5
   slip: for_all_to_take ? both : five => for_all_to_take ? five : both
   slip: space_set(9), -8 => space_set(9), 8
   Two groups: party 0 tells both, and party 3 of the other one looks and takes. */
#include "space.h"
#include <stdio.h>
#include "block1"
#include "block2"

static uint64_t space[SPACE_WORDS], roster[SPACE_ROSTER_WORDS], result[SPACE_MOST_FIELDS];
static void show(const char *what, uint32_t answer) { printf("%s: %u\n", what, (unsigned)answer); }

static uint32_t take(uint32_t party, uint32_t partition)
{
    const uint64_t any[2] = {SPACE_WILDCARD, SPACE_WILDCARD};
    return space_take(space, SPACE_WORDS, party, space_set(partition), -8, any, 2, result, SPACE_MOST_FIELDS);
}

int main(void)
{
    const uint64_t alarm[2] = {space_message(7), space_message(120)}, any[2] = {SPACE_WILDCARD, SPACE_WILDCARD};
    const uint64_t both = space_join(space_set(5), space_set(9));
    give_what_is_common(roster);
    show("open", space_open(space, SPACE_WORDS, roster, SPACE_ROSTER_WORDS));
    show("told both, for group 5 to take", tell_both(space, alarm, 2, 0));
    show("group 9 looks", look_from_group_9(space, any, 2, result));
    show("group 9 takes", take(3, 9));
    show("group 5 takes", take(1, 5));
    show("group 9 looks", look_from_group_9(space, any, 2, result));
    show("told both, for all to take", tell_both(space, alarm, 2, 1));
    show("group 9 takes", take(3, 9));
    show("group 5 takes", take(1, 5));
    show("party 1 puts for both", space_put(space, SPACE_WORDS, 1, both, -8, both, -8, alarm, 2));
    return 0;
}
