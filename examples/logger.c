/* A logger in small: a digitiser, the pickers of two groups and the telemetry share one space and don't trust one another.
   It needs space.h and stdio alone, and prints the same on the desk and on a board.

   Whoever puts an entry chooses a set of partitions and a key under which it is read (looked at or received), and such a pair under
   which it is taken. To find it one names a partition of the set and the co-key, and nobody can name what it doesn't hold. So all
   depends on who holds what:

     partition 1    triggers            the digitiser holds the keys 7 and -7, the pickers hold -7
     partition 2    settings            the telemetry holds 9 and -9, all others hold -9
     partition 10   picks of group A    picker A holds 3, -3 and 4, the telemetry holds -4
     partition 11   picks of group B    picker B holds 5, -5 and 6, the telemetry holds -6
     partition 12   notes of group A    picker A holds 13 and -13, and at first nobody else does
     10 and 11      alarms for both     both pickers hold 14 and -14, and picker A holds both partitions

   A program may pair any partitions that it holds with any key that it holds, so no key here serves two purposes. */
#include "space.h"
#include <stdio.h>

struct pair {
    uint64_t partitions;
    int32_t key;
};

/* Here every entry has three fields, and the first says what it is. */
enum { FIELDS = 3 };
enum { TRIGGER = 1, PICK, GAIN, NOTE, NAMES, ALARM };

/* What a program asks of the host. There is no party in it: the host knows who is asking. */
struct request {
    enum { PUT, LOOK, RECEIVE, TAKE } call;
    struct pair read, take; /* a put has both, a look and a receive the first, a take the second */
    uint64_t fields[FIELDS], found[FIELDS];
};

/* ---- The host ---- */

/* The space is the host's: a program that could write its words would be bound by nothing. */
static uint64_t space[SPACE_WORDS];

enum { DIGITISER, PICKER_A, PICKER_B, TELEMETRY }; /* the parties */

static uint32_t serve(uint32_t party, struct request *r)
{
    switch (r->call) {
    case PUT:
        return space_put(space, SPACE_WORDS, party, r->read.partitions, r->read.key, r->take.partitions, r->take.key, r->fields,
                         FIELDS);
    case LOOK:
        return space_look(space, SPACE_WORDS, party, r->read.partitions, r->read.key, r->fields, FIELDS, r->found, FIELDS);
    case RECEIVE:
        return space_receive(space, SPACE_WORDS, party, r->read.partitions, r->read.key, r->fields, FIELDS, r->found, FIELDS);
    default:
        return space_take(space, SPACE_WORDS, party, r->take.partitions, r->take.key, r->fields, FIELDS, r->found, FIELDS);
    }
}

/* A door for each program, with the party fixed in it. A program gets its own door alone, so it can't pass for another. */
static uint32_t digitiser_door(struct request *r) { return serve(DIGITISER, r); }
static uint32_t picker_a_door(struct request *r) { return serve(PICKER_A, r); }
static uint32_t picker_b_door(struct request *r) { return serve(PICKER_B, r); }
static uint32_t telemetry_door(struct request *r) { return serve(TELEMETRY, r); }

/* The plan above. Nobody holds what isn't in it, but for key 0, which is everybody's. */
static const struct gift {
    uint32_t party, partition;
    int32_t key;
} plan[] = {
    {DIGITISER, 1, 7},  {DIGITISER, 1, -7}, {PICKER_A, 1, -7},  {PICKER_B, 1, -7},
    {TELEMETRY, 2, 9},  {TELEMETRY, 2, -9}, {DIGITISER, 2, -9}, {PICKER_A, 2, -9}, {PICKER_B, 2, -9},
    {PICKER_A, 10, 3},  {PICKER_A, 10, -3}, {PICKER_A, 10, 4},  {TELEMETRY, 10, -4},
    {PICKER_B, 11, 5},  {PICKER_B, 11, -5}, {PICKER_B, 11, 6},  {TELEMETRY, 11, -6},
    {PICKER_A, 12, 13}, {PICKER_A, 12, -13},
    {PICKER_A, 10, 14}, {PICKER_A, 11, -14}, {PICKER_B, 11, 14}, {PICKER_B, 11, -14},
};

/* The space is opened once, when the logger starts. */
static uint32_t open_space(void)
{
    uint64_t roster[SPACE_ROSTER_WORDS] = {0};
    for (unsigned i = 0; i < sizeof plan / sizeof plan[0]; i++) {
        space_give_partition(roster, plan[i].party, plan[i].partition);
        space_give_key(roster, plan[i].party, plan[i].key);
    }
    return space_open(space, SPACE_WORDS, roster, SPACE_ROSTER_WORDS);
}

/* ---- The programs, and how they write down what they ask ---- */

static const struct program {
    const char *name;
    uint32_t (*door)(struct request *);
} digitiser = {"digitiser", digitiser_door}, picker_a = {"picker A", picker_a_door}, picker_b = {"picker B", picker_b_door},
  telemetry = {"telemetry", telemetry_door};

static struct pair triggers, settings, notes;
static struct pair picks_of_a, picks_of_b;           /* for a group's own eyes */
static struct pair from_a, from_b;                   /* for the telemetry to take */
static struct pair alarms_of_a, alarms_of_b, alarms; /* for one group, and for both */

static struct pair under(uint32_t partition, int32_t key) { return (struct pair){space_set(partition), key}; }

/* Sets are made by functions, which C allows in no initialiser of a static variable. */
static void make_pairs(void)
{
    triggers = under(1, 7), settings = under(2, 9), notes = under(12, 13);
    picks_of_a = under(10, 3), picks_of_b = under(11, 5);
    from_a = under(10, 4), from_b = under(11, 6);
    alarms_of_a = under(10, 14), alarms_of_b = under(11, 14);
    alarms = (struct pair){space_join(alarms_of_a.partitions, alarms_of_b.partitions), 14};
}

/* The pair that finds what is put under this one. Any partition of the set would do in place of all. */
static struct pair co(struct pair p) { return (struct pair){p.partitions, -p.key}; }

static struct request to_put(struct pair read, struct pair take, uint32_t what, uint64_t a, uint64_t b)
{
    return (struct request){.call = PUT, .read = read, .take = take, .fields = {space_message(what), a, b}};
}

/* Where the fields alone are wanted, a program looks. It receives where it wants the names in them: they are its own for good. */
static struct request to_look(struct pair pair, uint32_t what, uint64_t a, uint64_t b)
{
    return (struct request){.call = LOOK, .read = pair, .fields = {space_message(what), a, b}};
}

static struct request to_receive(struct pair pair, uint32_t what, uint64_t a, uint64_t b)
{
    return (struct request){.call = RECEIVE, .read = pair, .fields = {space_message(what), a, b}};
}

static struct request to_take(struct pair pair, uint32_t what, uint64_t a, uint64_t b)
{
    return (struct request){.call = TAKE, .take = pair, .fields = {space_message(what), a, b}};
}

#define ANY SPACE_WILDCARD
enum { DONE = 0, NONE = 0, FOUND = FIELDS }; /* answers */
static int surprises;                        /* answers that were not expected */
/* A refusal for a name that isn't held says where it stands: 113 is for a partition of a pair, 114 for a key of a pair, 107 for a
   name in a field. The first of the three that applies is the answer. */

static void show_field(uint64_t word)
{
    const char *kind = space_kind(word) == SPACE_KIND_PARTITION ? "partition " : space_kind(word) == SPACE_KIND_KEY ? "key " : "";
    printf(" %s%lld", kind, (long long)space_value(word));
}

/* A program goes to its door. A line says who does what and what the answer is. */
static struct request step(const struct program *p, const char *what, struct request r, uint32_t expected)
{
    uint32_t answer = p->door(&r);
    printf("%-9s  %s: ", p->name, what);
    if (space_refusal(answer)) printf("refused by %u. %s", (unsigned)answer, space_meaning(answer));
    else if (answer == 0) printf(r.call == PUT ? "done" : "none");
    else printf("found"), show_field(r.found[1]), show_field(r.found[2]);
    printf("\n");
    surprises += answer != expected;
    return r;
}

/* ---- What happens ---- */

/* Pickers find a trigger by -7. To put one takes 7, which no picker holds, so it can't be imitated. In the take pair the keys are
   swapped: what is put there under -7 is taken with 7, by the digitiser alone. */
static void a_trigger(void)
{
    step(&digitiser, "puts trigger 1, 4000 samples", to_put(triggers, co(triggers), TRIGGER, space_message(1), space_message(4000)), DONE);
    /* a look finds the oldest match each time, so a picker names the trigger that it hasn't seen yet */
    step(&picker_a, "looks at trigger 1", to_look(co(triggers), TRIGGER, space_message(1), ANY), FOUND);
    step(&picker_b, "looks at trigger 1", to_look(co(triggers), TRIGGER, space_message(1), ANY), FOUND);
    step(&picker_b, "tries to put a trigger", to_put(triggers, co(triggers), TRIGGER, space_message(2), space_message(9)), 114);
    step(&picker_b, "tries to take trigger 1", to_take(triggers, TRIGGER, space_message(1), ANY), 114);
    step(&picker_b, "tries it with a key that it holds", to_take(co(triggers), TRIGGER, space_message(1), ANY), NONE);
    step(&digitiser, "takes trigger 1 down", to_take(triggers, TRIGGER, space_message(1), ANY), FOUND);
}

/* A picker goes through the triggers of at least 8000 samples and leaves them to the others. It goes on by the running number, since
   triggers are found in the order in which they were put. */
static void triggers_after(void)
{
    uint64_t next = 2;
    int taken = 0;
    struct request down = to_take(triggers, TRIGGER, space_at_most(3), ANY);
    step(&digitiser, "puts trigger 2, 9000 samples", to_put(triggers, co(triggers), TRIGGER, space_message(2), space_message(9000)), DONE);
    step(&digitiser, "puts trigger 3, 7000 samples", to_put(triggers, co(triggers), TRIGGER, space_message(3), space_message(7000)), DONE);
    step(&digitiser, "puts trigger 4, 12000 samples", to_put(triggers, co(triggers), TRIGGER, space_message(4), space_message(12000)), DONE);
    for (int i = 0; i < 2; i++) {
        struct request asked = to_look(co(triggers), TRIGGER, space_at_least(next), space_at_least(8000));
        struct request got = step(&picker_a, "looks for the next of at least 8000 samples", asked, FOUND);
        next = (uint64_t)space_value(got.found[1]) + 1;
    }
    step(&picker_a, "looks for the next", to_look(co(triggers), TRIGGER, space_at_least(next), space_at_least(8000)), NONE);
    step(&picker_b, "looks for the oldest of them", to_look(co(triggers), TRIGGER, ANY, space_at_least(8000)), FOUND);
    while (digitiser.door(&down) == FOUND) taken++;
    printf("digitiser  takes the triggers up to number 3 down: %d\n", taken);
    step(&picker_b, "looks for the oldest of them", to_look(co(triggers), TRIGGER, ANY, space_at_least(8000)), FOUND);
    step(&digitiser, "takes trigger 4 down", to_take(triggers, TRIGGER, space_message(4), ANY), FOUND);
    surprises += taken != 2;
}

/* A pick is looked at by its own group and taken by the telemetry. A neighbour holds no key of the group, so it can neither see the
   picks nor thin them out. */
static void picks(void)
{
    step(&picker_a, "picks sample 1200 of trigger 1", to_put(picks_of_a, from_a, PICK, space_message(1), space_message(1200)), DONE);
    step(&picker_a, "picks sample 1340 of trigger 1", to_put(picks_of_a, from_a, PICK, space_message(1), space_message(1340)), DONE);
    step(&picker_b, "picks sample 1210 of trigger 1", to_put(picks_of_b, from_b, PICK, space_message(1), space_message(1210)), DONE);
    step(&picker_a, "looks at its group's oldest pick", to_look(co(picks_of_a), PICK, ANY, ANY), FOUND);
    step(&picker_b, "tries to look at a pick of group A", to_look(co(picks_of_a), PICK, ANY, ANY), 113);
    step(&picker_b, "tries to take a pick of group A", to_take(co(from_a), PICK, ANY, ANY), 113);
    step(&telemetry, "takes a pick of group A", to_take(co(from_a), PICK, ANY, ANY), FOUND);
    step(&telemetry, "takes a pick of group A", to_take(co(from_a), PICK, ANY, ANY), FOUND);
    step(&telemetry, "takes a pick of group A", to_take(co(from_a), PICK, ANY, ANY), NONE);
    step(&telemetry, "takes a pick of group B", to_take(co(from_b), PICK, ANY, ANY), FOUND);
}

/* All hold -9 and look at the setting; 9 is its owner's. To change it, first put the new one, then take the old one by its value.
   Whoever looks finds the oldest, so all go over from the old one to the new one and never find none. (It takes room for one entry
   more.) */
static void a_setting(void)
{
    step(&telemetry, "sets the gain of channel 1 to 20", to_put(settings, co(settings), GAIN, space_message(1), space_message(20)), DONE);
    step(&picker_b, "looks at the gain", to_look(co(settings), GAIN, space_message(1), ANY), FOUND);
    step(&picker_b, "tries to set it to 99", to_put(settings, co(settings), GAIN, space_message(1), space_message(99)), 114);
    step(&picker_b, "tries to take it away", to_take(co(settings), GAIN, space_message(1), ANY), NONE);
    step(&telemetry, "puts the new gain, 40", to_put(settings, co(settings), GAIN, space_message(1), space_message(40)), DONE);
    step(&digitiser, "looks at the gain", to_look(co(settings), GAIN, space_message(1), ANY), FOUND);
    step(&telemetry, "takes the old gain, 20", to_take(settings, GAIN, space_message(1), space_message(20)), FOUND);
    step(&digitiser, "looks at the gain", to_look(co(settings), GAIN, space_message(1), ANY), FOUND);
}

/* In an eruption the groups join. What picker A puts under both partitions is found with either, so picker B needs no name of the
   other group for it. To name both one must hold both. Whoever asks in both finds also what is put under one of them: alarm 2 is of
   group B alone, and it says so nowhere but in its partition. To part, picker A puts under its own partition again. */
static void an_eruption(void)
{
    step(&picker_a, "alarms both groups: 1, level 3", to_put(alarms, alarms, ALARM, space_message(1), space_message(3)), DONE);
    step(&picker_a, "looks in both partitions", to_look(co(alarms), ALARM, ANY, ANY), FOUND);
    step(&picker_b, "looks in its own partition", to_look(co(alarms_of_b), ALARM, ANY, ANY), FOUND);
    step(&picker_b, "tries to look in both", to_look(co(alarms), ALARM, ANY, ANY), 113);
    step(&picker_b, "tries to alarm both groups", to_put(alarms, alarms, ALARM, space_message(2), space_message(9)), 113);
    step(&picker_b, "alarms its own group: 2, level 9", to_put(alarms_of_b, alarms_of_b, ALARM, space_message(2), space_message(9)), DONE);
    step(&picker_a, "looks for alarm 2 in its own partition", to_look(co(alarms_of_a), ALARM, space_message(2), ANY), NONE);
    step(&picker_a, "looks for alarm 2 in both", to_look(co(alarms), ALARM, space_message(2), ANY), FOUND);
    step(&picker_b, "takes alarm 1 away", to_take(co(alarms_of_b), ALARM, space_message(1), ANY), FOUND);
    step(&picker_a, "looks for alarm 1", to_look(co(alarms), ALARM, space_message(1), ANY), NONE);
    step(&picker_a, "alarms its own group: 3, level 4", to_put(alarms_of_a, alarms_of_a, ALARM, space_message(3), space_message(4)), DONE);
    step(&picker_b, "looks for alarm 3", to_look(co(alarms_of_b), ALARM, space_message(3), ANY), NONE);
    step(&picker_b, "takes alarm 2 down", to_take(co(alarms_of_b), ALARM, space_message(2), ANY), FOUND);
    step(&picker_a, "takes alarm 3 down", to_take(co(alarms_of_a), ALARM, space_message(3), ANY), FOUND);
}

/* Names travel in fields. Picker A lets the telemetry look at its notes: it puts their partition and co-key under a pair that the
   telemetry alone finds. A look at them gives nothing. Whoever receives names, or takes them, holds them from then on, and nothing
   takes them back. */
static void names(void)
{
    step(&picker_a, "notes that battery 3 has 12 volts", to_put(notes, co(notes), NOTE, space_message(3), space_message(12)), DONE);
    step(&telemetry, "tries to look at the note", to_look(co(notes), NOTE, ANY, ANY), 113);
    step(&picker_a, "hands over the names", to_put(from_a, from_a, NAMES, space_partition(12), space_key(-notes.key)), DONE);
    step(&picker_b, "tries to take them", to_take(co(from_a), NAMES, ANY, ANY), 113);
    struct request seen = step(&telemetry, "looks at them", to_look(co(from_a), NAMES, ANY, ANY), FOUND);
    /* two numbers would give it no names, so it looks at the kinds */
    surprises += space_kind(seen.found[1]) != SPACE_KIND_PARTITION || space_kind(seen.found[2]) != SPACE_KIND_KEY;
    struct pair given = under((uint32_t)space_value(seen.found[1]), (int32_t)space_value(seen.found[2]));
    step(&telemetry, "tries to look at the note", to_look(given, NOTE, ANY, ANY), 113);
    step(&telemetry, "tries to hand them on", to_put(co(from_a), co(from_a), NAMES, seen.found[1], seen.found[2]), 107);
    step(&telemetry, "receives them", to_receive(co(from_a), NAMES, ANY, ANY), FOUND);
    step(&telemetry, "looks at the note", to_look(given, NOTE, ANY, ANY), FOUND);
    /* until they are taken, they count among the 16 entries of picker A */
    step(&telemetry, "takes them down", to_take(co(from_a), NAMES, ANY, ANY), FOUND);
    step(&telemetry, "tries to put a note", to_put(notes, co(notes), NOTE, space_message(3), space_message(0)), 114);
}

/* A program can have 16 live entries. Then it's refused until one of them is taken; of picks that is the telemetry's task. (A picker
   that should be able to drop its own would hold -4 too.) What one program has used up, no other misses. */
static void sixteen(void)
{
    struct request pick = to_put(picks_of_a, from_a, PICK, space_message(2), space_message(5));
    struct request next = to_take(co(from_a), PICK, ANY, ANY);
    int put = 0, taken = 0;
    while (picker_a.door(&pick) == DONE) put++;
    printf("picker A   puts picks until it is refused: %d, and the note is its 16th entry\n", put);
    step(&picker_a, "tries once more", pick, 108);
    step(&picker_b, "puts a pick all the same", to_put(picks_of_b, from_b, PICK, space_message(2), space_message(6)), DONE);
    while (telemetry.door(&next) == FOUND) taken++;
    printf("telemetry  takes picks of group A until there is none: %d\n", taken);
    step(&picker_a, "tries once more", pick, DONE);
    surprises += put != SPACE_SHARE - 1 || taken != put;
}

int main(void)
{
    uint32_t opened = open_space();
    make_pairs();
    printf("host       opens the space: %s\n", opened == DONE ? "done" : space_meaning(opened));
    a_trigger();
    triggers_after();
    picks();
    a_setting();
    an_eruption();
    names();
    sixteen();
    return surprises != 0;
}
