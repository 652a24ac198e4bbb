/* A roster read from a file, and the space opened with it; then each refusal of such a reading, once. */
#include "space.h"
#include <stdio.h>
#include <string.h>

static uint64_t space[SPACE_WORDS], roster[SPACE_ROSTER_WORDS];

/* the text of a file, as a program finds it on a card: party 0 gets partition 5 and key 4, party 1 partition 5 and key -4 */
static const char card[] = "party kind name\n"
                           "0 p 5\n"
                           "0 k 4\n"
                           "1 p 5\n"
                           "1 k -4\n";

static uint32_t read_text(const char *text, uint64_t words)
{
    return space_read_roster((const uint8_t *)text, strlen(text), roster, words);
}

static void show(const char *what, uint32_t answer) { printf("%s: %u, %s\n", what, (unsigned)answer, space_meaning(answer)); }

int main(void)
{
    const uint64_t entry[1] = {space_message(7)}, any[1] = {SPACE_WILDCARD};
    const uint64_t set = space_set(5);
    uint64_t result[SPACE_MOST_FIELDS];

    show("the card", read_text(card, SPACE_ROSTER_WORDS));
    for (int i = 0; i < SPACE_ROSTER_WORDS; i++)
        if (roster[i]) printf("word %d: %llu\n", i, (unsigned long long)roster[i]);
    show("open", space_open(space, SPACE_WORDS, roster, SPACE_ROSTER_WORDS));
    show("put by party 0", space_put(space, SPACE_WORDS, 0, set, 4, set, 4, entry, 1));
    show("take by party 1", space_take(space, SPACE_WORDS, 1, set, -4, any, 1, result, SPACE_MOST_FIELDS));

    show("15 words", read_text(card, SPACE_ROSTER_WORDS - 1));
    show("no line of names", read_text("0 p 5\n", SPACE_ROSTER_WORDS));
    show("0 p 05", read_text("party kind name\n0 p 05\n", SPACE_ROSTER_WORDS));
    show("0 p 64", read_text("party kind name\n0 p 5\n0 p 64\n", SPACE_ROSTER_WORDS));
    /* a refusal leaves the words as they were */
    show("the words of the card once more", space_open(space, SPACE_WORDS, roster, SPACE_ROSTER_WORDS));
    show("put by party 0", space_put(space, SPACE_WORDS, 0, set, 4, set, 4, entry, 1));
    return 0;
}
