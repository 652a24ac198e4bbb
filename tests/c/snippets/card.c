/* block: uint32_t start(void)
   slip: FILE_BYTES + 1 => FILE_BYTES
   slip: if (answer) => if (!answer)
   The page's card, one with a slip, the longest that is read, and one that is longer. */
#include "space.h"
#include <stdio.h>
#include <string.h>

static const char *card;

static uint64_t read_card(uint8_t *bytes, uint64_t most)
{
    const uint64_t length = strlen(card) < most ? strlen(card) : most;
    memcpy(bytes, card, length);
    return length;
}

#include "block1"

static void try_card(const char *what, const char *text)
{
    card = text;
    const uint32_t started = start();
    const uint64_t set = space_set(5), entry[1] = {space_message(7)};
    const uint32_t put = space_put(space, SPACE_WORDS, 0, set, 4, set, 4, entry, 1);
    printf("%s: %u, then a put: %u\n", what, (unsigned)started, (unsigned)put);
}

int main(void)
{
    static char longest[SPACE_ROSTER_FILE_BYTES + 7] = "party kind name\n0 k 4\n";
    try_card("a plus", "party kind name\n0 k +4\n");
    try_card("the page's", "party kind name\n0 p 5\n0 k 4\n1 p 5\n1 k -4\n");
    while (strlen(longest) < SPACE_ROSTER_FILE_BYTES) memcpy(longest + strlen(longest), "0 p 5\n", 7);
    printf("%u bytes: ", (unsigned)strlen(longest));
    try_card("the longest", longest);
    memcpy(longest + strlen(longest), "0 p 5\n", 7);
    printf("%u bytes: ", (unsigned)strlen(longest));
    try_card("too long", longest);
    return 0;
}
