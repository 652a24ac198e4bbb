/* What compiles and means something else, as docs/INTEGRATING.md lists it: what the library makes of each. */
#include "space.h"
#include <stdio.h>

static uint64_t space[SPACE_WORDS], roster[SPACE_ROSTER_WORDS], result[SPACE_MOST_FIELDS];
static void show(const char *what, uint32_t answer) { printf("%s: %u\n", what, (unsigned)answer); }

static uint32_t put(uint64_t partitions, int32_t key, uint64_t a, uint64_t b)
{
    const uint64_t fields[2] = {a, b};
    return space_put(space, SPACE_WORDS, 0, partitions, key, space_set(5), 0, fields, 2);
}

static void show_set(const char *what, uint64_t word)
{
    printf("%s:", what);
    for (uint32_t i = 0; i <= SPACE_LAST_PARTITION; i++)
        if (word & space_set(i)) printf(" %u", (unsigned)i);
    printf("\n");
}

int main(void)
{
    const uint64_t five = space_set(5), two[2] = {space_message(1), space_message(2)};
    space_give_partition(roster, 0, 5);
    show("open", space_open(space, SPACE_WORDS, roster, SPACE_ROSTER_WORDS));

    show("space_set(5) as a field", put(five, 0, space_message(7), space_set(5)));
    const uint64_t seven[2] = {space_message(7), SPACE_WILDCARD};
    show("found again", space_look(space, SPACE_WORDS, 0, five, 0, seven, 2, result, SPACE_MOST_FIELDS));
    printf("its kind %u, its number %u\n", (unsigned)space_kind(result[1]), (unsigned)space_value(result[1]));

    for (uint32_t i = 31; i < 36; i++) {
        printf("space_set(%u) as a field: kind %d, ", (unsigned)i, (int)space_kind(space_set(i)));
        printf("number %lld\n", (long long)space_value(space_set(i)));
    }

    show_set("space_partition(5) as a set", space_partition(5));
    show("a put under it", put(space_partition(5), 0, two[0], two[1]));
    show_set("space_message(5) or 5 as a set", space_message(5));
    show("a put under it", put(space_message(5), 0, two[0], two[1]));
    show_set("space_key(-4) as a set", space_key(-4));
    show("a put under it", put(space_key(-4), 0, two[0], two[1]));

    show("space_key(-4) as a key", put(five, (int32_t)space_key(-4), two[0], two[1]));
    printf("it is key %d\n", (int)(int32_t)space_key(-4));
    show("space_key(4) as a key", put(five, (int32_t)space_key(4), two[0], two[1]));

    show("sizeof of two fields", space_put(space, SPACE_WORDS, 0, five, 0, five, 0, two, sizeof two));
    show("sizeof of the space", space_open(space, sizeof space, roster, SPACE_ROSTER_WORDS));
    show("sizeof of the roster", space_open(space, SPACE_WORDS, roster, sizeof roster));
    show("sizeof of eight result words", space_look(space, SPACE_WORDS, 0, five, 0, seven, 2, result, sizeof result));
    return 0;
}
