/* block: uint32_t get_names(uint64_t *space
   slip: space_receive(space => space_look(space
   slip: space_kind(result[2]) == SPACE_KIND_KEY => space_kind(result[2]) == SPACE_KIND_MESSAGE
   slip: space_message(2) => space_message(3)
   Party 1 asks for notice 2: at first it has a partition and no key, then both, which party 1 lacks. */
#include "space.h"
#include <stdio.h>
#include "block1"

static uint64_t space[SPACE_WORDS], roster[SPACE_ROSTER_WORDS], result[SPACE_MOST_FIELDS];

static void notice(uint64_t number, uint64_t one, uint64_t other)
{
    const uint64_t set = space_set(5), fields[3] = {space_message(number), one, other};
    printf("notice %u: %u\n", (unsigned)number, (unsigned)space_put(space, SPACE_WORDS, 0, set, 4, set, 4, fields, 3));
}

static void ask(void)
{
    const uint64_t any[1] = {SPACE_WILDCARD};
    const uint32_t answer = get_names(space, 1, space_set(5), -4, result);
    const uint32_t used = space_look(space, SPACE_WORDS, 1, space_set(9), -6, any, 1, result + 3, SPACE_MOST_FIELDS - 3);
    printf("got %u: %lld %lld; a look with both names: %u\n", (unsigned)answer, (long long)space_value(result[1]),
           (long long)space_value(result[2]), (unsigned)used);
}

static void open_anew(void) { printf("open %u\n", (unsigned)space_open(space, SPACE_WORDS, roster, SPACE_ROSTER_WORDS)); }

int main(void)
{
    space_give_partition(roster, 0, 5), space_give_partition(roster, 0, 9), space_give_partition(roster, 1, 5);
    space_give_key(roster, 0, 4), space_give_key(roster, 0, -6), space_give_key(roster, 1, -4);
    open_anew();
    notice(1, space_partition(9), space_key(-6));
    notice(2, space_partition(9), space_message(6));
    notice(3, space_partition(9), space_key(-6));
    ask();
    open_anew();
    notice(2, space_partition(9), space_key(-6));
    ask();
    return 0;
}
