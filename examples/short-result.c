/* A guest program that is mended answer by answer: its card lacks names, and the result that it lends is too short.
   It needs space.h and stdio alone, and prints the same on the desk and on a board.

   The plotter was written when a pick had two fields, the trigger and the sample. Since then a pick has a third, the partition that
   its trace is in, and picks are put under partition 10 and key 3. The plotter's template has three fields by now. But it still lends
   two result words, and it has its old card, on which there is neither partition 10 nor key -3.

   A look, a receive and a take test the names of the pair, by 113 its partitions and by 114 its key, then by 107 the names in the
   template's fields, and last, by 106, whether the result has a word for each field. So whoever lacks a name is told so at once, and
   told the same with a longer result. 106 means that all else is right: with enough result words the call is not refused. */
#include "space.h"
#include <stdio.h>

enum { PICKER, PLOTTER }; /* the parties */
enum { PICKS = 10, TRACES = 12, PICK_KEY = 3 };
enum { OLD_FIELDS = 2, FIELDS = 3 };
enum { DONE = 0, NONE = 0, FOUND = FIELDS }; /* answers */
#define UNWRITTEN UINT64_MAX                 /* a word of no kind, so no field is like it */

static uint64_t space[SPACE_WORDS], card[SPACE_ROSTER_WORDS];
static int surprises; /* answers and result words that were not expected */

/* A line says who does what and what the answer is. */
static void tell(const char *who, const char *what, uint32_t answer, uint32_t expected, const char *unless_refused)
{
    printf("%-8s %s: ", who, what);
    if (space_refusal(answer)) printf("refused by %u\n", (unsigned)answer);
    else printf("%s\n", unless_refused);
    surprises += answer != expected;
}

/* The host opens the space with the card as it is by now. That empties it, so the picker puts its pick again. */
static void open_space(const char *what)
{
    const uint64_t pick[FIELDS] = {space_message(1), space_message(1200), space_partition(TRACES)}, picks = space_set(PICKS);
    tell("host", what, space_open(space, SPACE_WORDS, card, SPACE_ROSTER_WORDS), DONE, "done");
    uint32_t put = space_put(space, SPACE_WORDS, PICKER, picks, PICK_KEY, picks, PICK_KEY, pick, FIELDS);
    tell("picker", "puts a pick", put, DONE, "done");
}

/* What the plotter asks for. */
struct question {
    const char *what;
    uint64_t fields[FIELDS];
};
enum call { LOOK, RECEIVE, TAKE };

static uint32_t answer_to(enum call call, const uint64_t *fields, uint64_t *result, uint64_t lent)
{
    const uint64_t picks = space_set(PICKS);
    switch (call) {
    case LOOK: return space_look(space, SPACE_WORDS, PLOTTER, picks, -PICK_KEY, fields, FIELDS, result, lent);
    case RECEIVE: return space_receive(space, SPACE_WORDS, PLOTTER, picks, -PICK_KEY, fields, FIELDS, result, lent);
    default: return space_take(space, SPACE_WORDS, PLOTTER, picks, -PICK_KEY, fields, FIELDS, result, lent);
    }
}

/* The plotter's call, with as many result words as it lends. A refusal writes none of them, and "found" just those of the fields. */
static void asks(enum call call, const struct question *q, uint32_t lent, uint32_t expected)
{
    static const char *const calls[] = {"looks for", "receives", "takes"};
    uint64_t result[SPACE_MOST_FIELDS];
    uint32_t written = 0;
    char what[80], found[80] = "none";
    for (int i = 0; i < SPACE_MOST_FIELDS; i++) result[i] = UNWRITTEN;
    uint32_t answer = answer_to(call, q->fields, result, lent);
    for (int i = 0; i < SPACE_MOST_FIELDS; i++) written += result[i] != UNWRITTEN;
    if (answer == FOUND)
        snprintf(found, sizeof found, "found trigger %lld, sample %lld, trace in %lld", (long long)space_value(result[0]),
                 (long long)space_value(result[1]), (long long)space_value(result[2]));
    snprintf(what, sizeof what, "%s %s, %u result words", calls[call], q->what, (unsigned)lent);
    tell("plotter", what, answer, expected, found);
    surprises += written != (space_refusal(answer) ? 0 : answer);
}

/* Where a name is lacked, eight result words help no more than two: what the refusal says comes first, and has to be mended. */
static void refused_either_way(const struct question *q, uint32_t by)
{
    for (enum call call = LOOK; call <= TAKE; call++) {
        asks(call, q, OLD_FIELDS, by);
        asks(call, q, SPACE_MOST_FIELDS, by);
    }
}

int main(void)
{
    const struct question any = {"a pick", {SPACE_WILDCARD, SPACE_WILDCARD, SPACE_WILDCARD}};
    const struct question in_traces = {"a pick with its trace in 12", {SPACE_WILDCARD, SPACE_WILDCARD, space_partition(TRACES)}};

    space_give_partition(card, PICKER, PICKS);
    space_give_partition(card, PICKER, TRACES);
    space_give_key(card, PICKER, PICK_KEY);
    open_space("opens the space with nothing for the plotter");
    refused_either_way(&in_traces, 113);

    space_give_partition(card, PLOTTER, PICKS);
    open_space("opens it with partition 10 for the plotter");
    refused_either_way(&in_traces, 114);

    space_give_key(card, PLOTTER, -PICK_KEY);
    open_space("opens it with partition 10 and key -3 for the plotter");
    refused_either_way(&in_traces, 107);

    /* the card is right now: the template named a partition that the plotter doesn't hold, so it asks with a wildcard */
    for (enum call call = LOOK; call <= TAKE; call++) asks(call, &any, OLD_FIELDS, 106);
    asks(LOOK, &any, FIELDS, FOUND);
    asks(RECEIVE, &any, FIELDS, FOUND);
    /* the receive gave it partition 12, which it may name from now on */
    asks(TAKE, &in_traces, OLD_FIELDS, 106);
    asks(TAKE, &in_traces, SPACE_MOST_FIELDS, FOUND);
    asks(LOOK, &any, FIELDS, NONE);
    return surprises != 0;
}
