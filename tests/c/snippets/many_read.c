/* block: void give_what_many_read(uint64_t *roster)
   slip: space_give_partition(roster, 0, 6); => space_give_partition(roster, 0, 9);
   slip: space_set(6), 0, fields => space_set(5), 0, fields
   slip: space_set(6), 0, wanted => space_set(5), 0, wanted
   slip: space_give_key(roster, party, -7) => space_give_key(roster, party, 7)
   The owner puts, the readers look and can't take, and the owner takes down. */
#include "space.h"
#include <stdio.h>
#include "block1"

static uint64_t space[SPACE_WORDS], roster[SPACE_ROSTER_WORDS], result[SPACE_MOST_FIELDS];
static const uint64_t any[1] = {SPACE_WILDCARD};
static void show(const char *what, uint32_t answer) { printf("%s: %u\n", what, (unsigned)answer); }

static uint32_t take(uint32_t partition, int32_t key)
{
    return space_take(space, SPACE_WORDS, 2, space_set(partition), key, any, 1, result, SPACE_MOST_FIELDS);
}

int main(void)
{
    const uint64_t trigger[1] = {space_message(7)};
    give_what_many_read(roster);
    show("open", space_open(space, SPACE_WORDS, roster, SPACE_ROSTER_WORDS));
    show("the owner puts", put_for_many(space, trigger, 1));
    for (uint32_t party = 1; party < 4; party++)
        show("a reader looks", space_look(space, SPACE_WORDS, party, space_set(5), -7, any, 1, result, SPACE_MOST_FIELDS));
    show("takes with its key", take(5, -7));
    show("with the owner's", take(5, 7));
    show("with key 0", take(5, 0));
    show("in the owner's partition", take(6, 0));
    show("puts an imitation", space_put(space, SPACE_WORDS, 2, space_set(5), 7, space_set(5), 0, trigger, 1));
    show("puts for the owner to take", space_put(space, SPACE_WORDS, 2, space_set(5), -7, space_set(6), 0, trigger, 1));
    show("the owner takes", take_down(space, any, 1, result));
    show("the owner takes", take_down(space, any, 1, result));
    return 0;
}
