/* Makes the calls of standard input, whose lines are a console's without the first one, and shows what each leaves: a line with the
   answer and the fields found, and a line with all words of the space. Before the opening no word of it is 0. Two lines are no calls:
   `word N W - - - -` writes the number W into word N, as no call would, and `lent N - - - - -` has the next calls lend N words. */
#include "space.h"
#include <stdio.h>
#include <stdlib.h>
#include <string.h>

static uint64_t space[SPACE_WORDS], roster[SPACE_ROSTER_WORDS];

static uint64_t word_of(const char *field)
{
    switch (field[0]) {
    case 'm': return space_message(strtoull(field + 1, NULL, 10));
    case 'p': return space_partition((uint32_t)strtoul(field + 1, NULL, 10));
    case 'k': return space_key((int32_t)strtol(field + 1, NULL, 10));
    case 'g': return space_at_least(strtoull(field + 1, NULL, 10));
    case 'l': return space_at_most(strtoull(field + 1, NULL, 10));
    default: return SPACE_WILDCARD;
    }
}

/* The set that a text names, partition by partition. */
static uint64_t set_of(const char *text)
{
    uint64_t set = space_set((uint32_t)strtoul(text, NULL, 10));
    while ((text = strchr(text, ':'))) set = space_join(set, space_set((uint32_t)strtoul(++text, NULL, 10)));
    return set;
}

static void show(uint32_t answer, const uint64_t *result)
{
    printf("%u", (unsigned)answer);
    for (uint32_t i = 0; result && !space_refusal(answer) && i < answer; i++) printf(" %llu", (unsigned long long)result[i]);
    printf("\n");
    for (uint32_t i = 0; i < SPACE_WORDS; i++) printf("%s%llu", i ? " " : "", (unsigned long long)space[i]);
    printf("\n");
}

int main(void)
{
    char line[600], call[8], rpart[200], rkey[12], tpart[200], tkey[12], text[120];
    unsigned party;
    uint64_t lent = SPACE_WORDS;
    int opened = 0;
    memset(space, 0xff, sizeof space);
    while (fgets(line, sizeof line, stdin)) {
        uint64_t fields[SPACE_MOST_FIELDS], result[SPACE_MOST_FIELDS], count = 0;
        if (sscanf(line, "%7s %u %199s %11s %199s %11s %119s", call, &party, rpart, rkey, tpart, tkey, text) != 7) return 1;
        if (!strcmp(call, "give")) {
            if (strcmp(rpart, "-") && !space_give_partition(roster, party, (uint32_t)atoi(rpart))) return 1;
            if (strcmp(rkey, "-") && !space_give_key(roster, party, atoi(rkey))) return 1;
            continue;
        }
        if (!strcmp(call, "word") || !strcmp(call, "lent")) {
            const int word = call[0] == 'w';
            if (party >= SPACE_WORDS) return 1;
            if (word) space[party] = strtoull(rpart, NULL, 10);
            else lent = party;
            continue;
        }
        if (!opened && space_open(space, SPACE_WORDS, roster, SPACE_ROSTER_WORDS)) return 1;
        opened = 1;
        for (char *field = strtok(text, ","); field && count < SPACE_MOST_FIELDS; field = strtok(NULL, ","))
            fields[count++] = word_of(field);
        const uint64_t set = set_of(rpart);
        const int32_t key = atoi(rkey);
        if (!strcmp(call, "put"))
            show(space_put(space, lent, party, set, key, set_of(tpart), atoi(tkey), fields, count), NULL);
        else if (!strcmp(call, "look"))
            show(space_look(space, lent, party, set, key, fields, count, result, SPACE_MOST_FIELDS), result);
        else if (!strcmp(call, "receive"))
            show(space_receive(space, lent, party, set, key, fields, count, result, SPACE_MOST_FIELDS), result);
        else if (!strcmp(call, "take"))
            show(space_take(space, lent, party, set, key, fields, count, result, SPACE_MOST_FIELDS), result);
        else
            return 1;
    }
    return 0;
}
