/* The five calls of the rules' example, made from C: a program includes the header and links the archive. Then the same with a set
   of two partitions, sets that are refused, and the default partition. Last a look, which gives no names; that prints nothing, the
   status tells it. */
#include "space.h"
#include <stdio.h>

static uint64_t space[SPACE_WORDS];

static void show(int number, uint32_t answer, int is_put, const uint64_t *result)
{
    if (space_refusal(answer)) {
        printf("%d no%u -\n", number, (unsigned)space_refusal(answer));
    } else if (answer == 0) {
        printf("%d %s -\n", number, is_put ? "done" : "none");
    } else {
        printf("%d found ", number);
        for (uint32_t i = 0; i < answer; i++) printf("%sm%lld", i ? "," : "", (long long)space_value(result[i]));
        printf("\n");
    }
}

/* Party 0 puts its key 4 into a field. Party 1 looks at it and still can't put under key 4, nor put the key into a field; once it
   has received it, it can. */
static int a_look_gives_no_names(void)
{
    const uint64_t key[1] = {space_key(4)}, any[1] = {SPACE_WILDCARD}, five = space_set(5);
    uint64_t result[SPACE_MOST_FIELDS];
    return space_put(space, SPACE_WORDS, 0, five, 4, five, 4, key, 1) == 0
        && space_look(space, SPACE_WORDS, 1, five, -4, any, 1, result, SPACE_MOST_FIELDS) == 1 && result[0] == key[0]
        && space_put(space, SPACE_WORDS, 1, five, 4, five, 4, key, 1) == 114
        && space_put(space, SPACE_WORDS, 1, five, -4, five, -4, key, 1) == 107
        && space_receive(space, SPACE_WORDS, 1, five, -4, any, 1, result, SPACE_MOST_FIELDS) == 1
        && space_put(space, SPACE_WORDS, 1, five, 4, five, 4, key, 1) == 0;
}

int main(void)
{
    const uint64_t entry[2] = {space_message(7), space_message(120)};
    const uint64_t first[2] = {space_message(7), SPACE_WILDCARD}, any[2] = {SPACE_WILDCARD, SPACE_WILDCARD};
    const uint64_t five = space_set(5), nine = space_set(9), both = space_join(five, nine), empty = space_set(64);
    uint64_t roster[SPACE_ROSTER_WORDS] = {0}, result[SPACE_MOST_FIELDS];

    /* party 0 holds partitions 5 and 9 and key 4, party 1 partition 5 and key -4, party 2 partitions 0 and 9 and key -4 */
    space_give_partition(roster, 0, 5);
    space_give_partition(roster, 0, 9);
    space_give_key(roster, 0, 4);
    space_give_partition(roster, 1, 5);
    space_give_key(roster, 1, -4);
    space_give_partition(roster, 2, 0);
    space_give_partition(roster, 2, 9);
    space_give_key(roster, 2, -4);

    printf("open %u\n", (unsigned)space_open(space, SPACE_WORDS, roster, SPACE_ROSTER_WORDS));
    show(1, space_put(space, SPACE_WORDS, 0, five, 4, five, 4, entry, 2), 1, result);
    show(2, space_receive(space, SPACE_WORDS, 1, five, -4, first, 2, result, SPACE_MOST_FIELDS), 0, result);
    show(3, space_take(space, SPACE_WORDS, 0, five, -4, any, 2, result, SPACE_MOST_FIELDS), 0, result);
    show(4, space_take(space, SPACE_WORDS, 1, five, -4, any, 2, result, SPACE_MOST_FIELDS), 0, result);
    show(5, space_receive(space, SPACE_WORDS, 1, five, -4, any, 2, result, SPACE_MOST_FIELDS), 0, result);

    /* what is put under 5 and 9 is found with either, by whoever holds that one; to name both one must hold both */
    show(6, space_put(space, SPACE_WORDS, 0, both, 4, both, 4, entry, 2), 1, result);
    show(7, space_look(space, SPACE_WORDS, 1, five, -4, any, 2, result, SPACE_MOST_FIELDS), 0, result);
    show(8, space_look(space, SPACE_WORDS, 2, nine, -4, any, 2, result, SPACE_MOST_FIELDS), 0, result);
    show(9, space_look(space, SPACE_WORDS, 2, both, -4, any, 2, result, SPACE_MOST_FIELDS), 0, result);
    show(10, space_take(space, SPACE_WORDS, 2, nine, -4, any, 2, result, SPACE_MOST_FIELDS), 0, result);
    show(11, space_look(space, SPACE_WORDS, 1, five, -4, any, 2, result, SPACE_MOST_FIELDS), 0, result);

    /* there is no partition 64, so this set is empty, and so is every set that is joined with it */
    show(12, space_put(space, SPACE_WORDS, 0, five, 4, empty, 4, entry, 2), 1, result);
    show(13, space_put(space, SPACE_WORDS, 0, space_join(five, empty), 4, five, 4, entry, 2), 1, result);
    show(14, space_look(space, SPACE_WORDS, 2, empty, -4, any, 2, result, SPACE_MOST_FIELDS), 0, result);

    /* key 0 is everybody's, and partition 0 is not: party 1 isn't given it */
    show(15, space_put(space, SPACE_WORDS, 2, space_set(0), 0, space_set(0), 0, entry, 2), 1, result);
    show(16, space_look(space, SPACE_WORDS, 1, space_set(0), 0, any, 2, result, SPACE_MOST_FIELDS), 0, result);
    show(17, space_look(space, SPACE_WORDS, 1, five, 0, any, 2, result, SPACE_MOST_FIELDS), 0, result);
    show(18, space_take(space, SPACE_WORDS, 2, space_set(0), 0, any, 2, result, SPACE_MOST_FIELDS), 0, result);
    return !a_look_gives_no_names();
}
