/* A leg that walks: the knee bends step by step, and what follows is committed, the newest update first.
 *
 *     walk DECK        DECK: the bytes of the deck examples/leg/leg.txt
 */
#include "reaction.h"

#include <stdio.h>

enum { KNEE = 1, ANKLE = 2, THIGH = 3, CALF = 4 };  /* parts of the left leg */
enum { BEND = 2, TILT = 3, BULGE = 4 };             /* channels */
enum { PLACES = 40, POOL = PLACES * REACTION_PLACE };

/* The host owns all memory: the deck's bytes, the state, the pool of pending updates, and the answers. */
static uint8_t deck[REACTION_LONGEST_DECK + 1];
static size_t length;
static int32_t values[REACTION_VALUES], pool[POOL];
static uint32_t pending, answer[REACTION_ANSWER];

/* Every call returns 0 or the number of its refusal. A refused call changes nothing, but for a refused start, which zeroes
 * the state. */
static int refused(const char *call, unsigned number) {
    unsigned place = answer[0];
    if (number != 0)
        printf("%s: refused %u %u\n", call, number, place);
    return number != 0;
}

static int value(int part, int channel) {
    return values[REACTION_CHANNELS * part + channel];
}

/* Enters a bend of a part and commits until nothing is pending. 0 when nothing was refused. */
static int bend(unsigned part, int degrees) {
    const int32_t pairs[] = {BEND, degrees}; /* one pair, two numbers */
    int applied = 0, discarded = 0;
    if (refused("input", reaction_input(deck, length, pool, POOL, values, &pending, part, pairs, 2, answer)))
        return 1;
    while (pending > 0) {
        if (refused("commit", reaction_commit(deck, length, pool, POOL, values, &pending, pending - 1, answer)))
            return 1;
        applied += answer[1] == 1;
        discarded += answer[1] == 0; /* the part's limit would have failed */
    }
    printf("bend %d: %d applied, %d discarded; thigh bulges %d, calf %d; ankle tilts %d\n", degrees, applied,
           discarded, value(THIGH, BULGE), value(CALF, BULGE), value(ANKLE, TILT));
    return 0;
}

int main(int argc, char **argv) {
    FILE *file = argc == 2 ? fopen(argv[1], "rb") : NULL;
    if (file == NULL) {
        fprintf(stderr, "usage: walk DECK\n");
        return 2;
    }
    length = fread(deck, 1, sizeof deck, file); /* of a longer file the engine sees one byte too many */
    fclose(file);
    if (refused("check", reaction_check(deck, length, answer)))
        return 1;
    printf("%d channels, %d rules, %d parts\n", (int)answer[1], (int)answer[2], (int)answer[3]);
    if (refused("start", reaction_start(deck, length, pool, POOL, values, &pending, answer)))
        return 1;
    if (bend(KNEE, 10) || bend(KNEE, 35) || bend(KNEE, 55))
        return 1;
    return bend(99, 10) ? 0 : 1; /* the deck has no part 99 */
}
