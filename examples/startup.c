/* A station's start-up: the host starts its programs in an order in which none waits for a name that a later one puts.
   It needs space.h and stdio alone, and prints the same on the desk and on a board.

   The parties are those of logger.c. Here the digitiser puts up the partition and key under which the triggers are found, and both
   pickers wait for them; each picker puts up those of its picks, and the telemetry waits for both. So there are four pairs. Which
   program waits for which is known when a station is planned: the pairs stand beside its roster. */
#include "space.h"
#include <stdio.h>

enum { DIGITISER, PICKER_A, PICKER_B, TELEMETRY }; /* the parties; 4 to 7 have no program here */

static void start_digitiser(void) { printf("start digitiser\n"); }
static void start_picker_a(void) { printf("start picker A\n"); }
static void start_picker_b(void) { printf("start picker B\n"); }
static void start_telemetry(void) { printf("start telemetry\n"); }

static const struct program {
    const char *name;
    void (*start)(void);
} programs[SPACE_PARTIES] = {
    {"digitiser", start_digitiser},
    {"picker A", start_picker_a},
    {"picker B", start_picker_b},
    {"telemetry", start_telemetry},
};

/* What a circle means is for people: one of its programs must do without what it waits for. So the host starts nothing, names a
   program and leaves the rest to whoever made the plan. */
static void tell_circle(uint32_t party)
{
    const char *name = programs[party].name;
    if (name) printf("circle: %s waits for itself in the end. Nothing is started.\n", name);
    else printf("circle: party %u, which has no program, waits for itself in the end. Nothing is started.\n", (unsigned)party);
}

/* Answers 1 if all programs were started, and 0 if none was. */
static int start_all(const uint64_t *pairs, uint64_t pair_count)
{
    uint64_t order[SPACE_PARTIES];
    uint32_t answer = space_start_order(pairs, pair_count, order, SPACE_PARTIES);
    if (space_refusal(answer)) {
        printf("refused by %u: %s Nothing is started.\n", (unsigned)answer, space_meaning(answer));
        return 0;
    }
    if (answer) {
        tell_circle(answer - 1);
        return 0;
    }
    /* all eight parties are in the order, those without a program too */
    for (int i = 0; i < SPACE_PARTIES; i++)
        if (programs[order[i]].start) programs[order[i]].start();
    return 1;
}

int main(void)
{
    const uint64_t plan[] = {
        space_before(DIGITISER, PICKER_A),
        space_before(DIGITISER, PICKER_B),
        space_before(PICKER_A, TELEMETRY),
        space_before(PICKER_B, TELEMETRY),
        /* one pair too many: picker B is to wait for the telemetry, which waits for it */
        space_before(TELEMETRY, PICKER_B),
    };
    const uint64_t settings_first[] = {
        space_before(DIGITISER, PICKER_A),
        space_before(DIGITISER, PICKER_B),
        space_before(TELEMETRY, DIGITISER),
        /* one pair too many: there is no party 8 */
        space_before(SPACE_PARTIES, TELEMETRY),
    };
    int started;

    printf("the station's plan:\n");
    started = start_all(plan, 4);
    printf("one in which the digitiser waits for the telemetry's settings, and the telemetry for nobody:\n");
    started += start_all(settings_first, 3);
    printf("the first with a pair too many:\n");
    started += start_all(plan, 5);
    printf("the second with a pair too many:\n");
    started += start_all(settings_first, 4);
    return started != 2;
}
