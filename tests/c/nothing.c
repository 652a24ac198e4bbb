/* Where a length is 0 nothing is lent, and the pointer may be null, or lead where no memory is: every call answers as it would with any
   other pointer, and touches nothing through it. */
#include "space.h"
#include <stddef.h>
#include <stdio.h>

#ifdef __arm__
#define NOWHERE 0x70000000 /* no memory of the emulated boards: they fault there, but not at 0 */
#else
#define NOWHERE 8
#endif

static uint64_t space[SPACE_WORDS], roster[SPACE_ROSTER_WORDS], order[SPACE_PARTIES], result[SPACE_MOST_FIELDS];
static void show(const char *what, uint32_t answer) { printf("%s: %u\n", what, (unsigned)answer); }

static void lend(uint64_t *none)
{
    static const uint8_t card[] = "party kind name\n";
    const uint64_t any[1] = {SPACE_WILDCARD}, pair[1] = {space_before(1, 0)};
    const uint64_t five = space_set(5);
    show("a file of nothing", space_read_roster((const uint8_t *)none, 0, roster, SPACE_ROSTER_WORDS));
    show("a roster of nothing, read", space_read_roster(card, sizeof card - 1, none, 0));
    show("no pair", space_start_order(none, 0, order, SPACE_PARTIES));
    show("no place for an order", space_start_order(pair, 1, none, 0));
    show("open nothing", space_open(none, 0, roster, SPACE_ROSTER_WORDS));
    show("open by nothing", space_open(space, SPACE_WORDS, none, 0));
    show("put nothing", space_put(space, SPACE_WORDS, 0, five, 0, five, 0, none, 0));
    show("put into nothing", space_put(none, 0, 0, five, 0, five, 0, any, 1));
    show("look for nothing", space_look(space, SPACE_WORDS, 0, five, 0, none, 0, result, SPACE_MOST_FIELDS));
    show("look into nothing", space_look(space, SPACE_WORDS, 0, five, 0, any, 1, none, 0));
    show("receive into nothing", space_receive(space, SPACE_WORDS, 0, five, 0, any, 1, none, 0));
    show("take into nothing", space_take(space, SPACE_WORDS, 0, five, 0, any, 1, none, 0));
}

int main(void)
{
    const uint64_t field[1] = {space_message(7)}, any[1] = {SPACE_WILDCARD};
    space_give_partition(roster, 0, 5);
    show("open", space_open(space, SPACE_WORDS, roster, SPACE_ROSTER_WORDS));
    show("put", space_put(space, SPACE_WORDS, 0, space_set(5), 0, space_set(5), 0, field, 1));
    lend(NULL);
    lend((uint64_t *)(uintptr_t)NOWHERE);
    show("take", space_take(space, SPACE_WORDS, 0, space_set(5), 0, any, 1, result, SPACE_MOST_FIELDS));
    return 0;
}
