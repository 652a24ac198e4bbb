/* block: int a_name_is_missing(uint32_t answer)
   slip: refusal == 14 => refusal == 15
   Of all answers those that say that a name is missing. */
#include "space.h"
#include <stdio.h>
#include "block1"

int main(void)
{
    for (uint32_t answer = 0; answer <= 120; answer++)
        if (a_name_is_missing(answer)) printf("%u\n", (unsigned)answer);
    return 0;
}
