/* The start order of a station's programs; then a circle, and each refusal of such a call, once. */
#include "space.h"
#include <stdio.h>

static uint64_t order[SPACE_PARTIES];

static void show(const char *what, uint32_t answer) { printf("%s: %u, %s\n", what, (unsigned)answer, space_meaning(answer)); }

static void show_order(void)
{
    for (int i = 0; i < SPACE_PARTIES; i++) printf(i ? " %u" : "%u", (unsigned)order[i]);
    printf("\n");
}

int main(void)
{
    /* party 5 puts what 0 and 3 wait for, and 3 what 2 waits for; the others wait for nobody */
    const uint64_t pairs[3] = {space_before(3, 2), space_before(5, 0), space_before(5, 3)};
    const uint64_t circle[4] = {space_before(6, 2), space_before(2, 4), space_before(4, 6), space_before(4, 1)};
    const uint64_t wrong[2] = {space_before(0, 1), space_before(8, 8)};
    static const uint64_t many[SPACE_MOST_PAIRS + 1];

    show("no pair", space_start_order(pairs, 0, order, SPACE_PARTIES));
    show_order();
    show("three pairs", space_start_order(pairs, 3, order, SPACE_PARTIES));
    show_order();

    /* 2, 4 and 6 lie on the circle; 1 only waits for it */
    show("a circle", space_start_order(circle, 4, order, SPACE_PARTIES));
    show("65 pairs", space_start_order(many, SPACE_MOST_PAIRS + 1, order, SPACE_PARTIES));
    show("7 result words", space_start_order(pairs, 3, order, SPACE_PARTIES - 1));
    show("party 8", space_start_order(wrong, 2, order, SPACE_PARTIES));
    /* a circle and a refusal leave the words as they were */
    show_order();
    return 0;
}
