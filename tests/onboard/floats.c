/* A program with floats of its own calls the library: what it holds in float registers is there again after each call. It is
   compiled for each float ABI; with -mfloat-abi=hard its own floats are passed in float registers, too. */
#include "space.h"
#include <stdio.h>

enum { ROUNDS = 200 };
static uint64_t space[SPACE_WORDS];

__attribute__((noinline)) static float scaled(float count, float gain, float offset) { return count * gain + offset; }

/* a put, a look and a take of one message, with eight floats that are needed before and after */
__attribute__((noinline)) static int round_trip(uint32_t count)
{
    float held[8];
    for (int i = 0; i < 8; i++) held[i] = scaled((float)count, 0.5f, (float)i);
    const float a = held[0], b = held[1], c = held[2], d = held[3], e = held[4], f = held[5], g = held[6], h = held[7];
    const uint64_t fields[1] = {space_message(count)}, any[1] = {SPACE_WILDCARD};
    uint64_t seen[1] = {0}, taken[1] = {0};
    int wrong = space_put(space, SPACE_WORDS, 0, space_set(5), 4, space_set(5), 4, fields, 1) != 0;
    wrong += space_look(space, SPACE_WORDS, 1, space_set(5), -4, any, 1, seen, 1) != 1;
    wrong += space_take(space, SPACE_WORDS, 1, space_set(5), -4, any, 1, taken, 1) != 1;
    wrong += seen[0] != fields[0] || taken[0] != fields[0];
    wrong += a + b + c + d + e + f + g + h != scaled((float)count, 4.0f, 28.0f);
    return wrong;
}

int main(void)
{
#ifdef __ARM_FP
    *(volatile uint32_t *)0xE000ED88 |= 0xFu << 20; /* the float unit is off at first */
    __asm__ volatile("dsb\n\tisb" ::: "memory");
#endif
    uint64_t roster[SPACE_ROSTER_WORDS] = {0};
    int wrong = !space_give_partition(roster, 0, 5) + !space_give_partition(roster, 1, 5);
    wrong += !space_give_key(roster, 0, 4) + !space_give_key(roster, 1, -4);
    wrong += space_open(space, SPACE_WORDS, roster, SPACE_ROSTER_WORDS) != 0;
    for (uint32_t count = 0; count < ROUNDS; count++) wrong += round_trip(count);
    printf("%d rounds, %d wrong\n", ROUNDS, wrong);
    return wrong != 0;
}
