/* block: {5} and {5, 9}
   slip: space_set(9) => space_set(64)
   The words of the two sets. */
#include "space.h"
#include <stdio.h>

int main(void)
{
#include "block1"
    printf("%u %u\n", (unsigned)five, (unsigned)both);
    return 0;
}
