/* block: void give_partition_0_to_all(uint64_t *roster)
   slip: party < SPACE_PARTIES => party + 1 < SPACE_PARTIES
   slip: party, 0) => party, 1)
   What an opening then leaves of holdings, and a look in partition 0. */
#include "space.h"
#include <stdio.h>
#include "block1"

int main(void)
{
    static uint64_t space[SPACE_WORDS], roster[SPACE_ROSTER_WORDS], result[SPACE_MOST_FIELDS];
    const uint64_t any[1] = {SPACE_WILDCARD};
    give_partition_0_to_all(roster);
    printf("open %u\n", (unsigned)space_open(space, SPACE_WORDS, roster, SPACE_ROSTER_WORDS));
    for (uint32_t party = 0; party < SPACE_PARTIES; party++) {
        const uint32_t answer = space_look(space, SPACE_WORDS, party, space_set(0), 0, any, 1, result, SPACE_MOST_FIELDS);
        printf("party %u: %llu %llu, look %u\n", (unsigned)party, (unsigned long long)space[1 + party],
               (unsigned long long)space[9 + party], (unsigned)answer);
    }
    return 0;
}
