/* block: uint32_t start_all(void)
   slip: {PICKER_B, TELEMETRY} => {TELEMETRY, PICKER_B}
   slip: if (answer == 0) => if (answer != 0)
   The programs are started in the order of the page's plan. */
#include "space.h"
#include <stdio.h>

static void start_program(uint32_t party) { printf("party %u\n", (unsigned)party); }

#include "block1"

int main(void)
{
    printf("answer %u\n", (unsigned)start_all());
    return 0;
}
