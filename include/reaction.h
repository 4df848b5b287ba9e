/* The reaction engine: seven calls over memory that the host owns. The archive dist/libreaction.a has them, for x86-64 Linux;
 * docs/EMBEDDING.md says how it is linked, and how it is proved and built anew.
 *
 * Every call returns the number of its refusal, or 0 when it is accepted. Whatever the numbers behind the pointers are, a call
 * ends with one or the other. A refused call changes nothing but `answer`, with two exceptions: reaction_section makes its stretch
 * empty, and reaction_start sets the state, all of `values` and `*pending`, to 0 (and leaves the pool).
 *
 * Number  Refusal                                                             Place, answer[0]
 *      1  the deck ends inside a field or expression                          the deck's length
 *      2  a number of the deck is out of its range, or a list does not rise   offset of the byte
 *      3  an expression has an unknown operator or channel                    offset of its byte
 *      4  a target stands twice in an action                                  offset of the second
 *      5  bytes follow the last section                                       offset of the first
 *      6  a part opens outside its limit                                      the lowest such part
 *      7  the dependency graph has a cycle                                    the lowest channel on one
 *      8  a carried rule's charge is above 65,535                             the lowest 64 * part + rule
 *      9  the pool's length is not a multiple of 10 from 10 to 655,350        0
 *     10  the state is not a good one                                         0
 *     11  there is no such part                                               0
 *     12  the input is not 1 to 32 pairs of known, different channels         0
 *     13  the charge after the input would exceed the pool's places           0
 *     14  the place is not pending                                            0
 *     15  the section number is above 2                                       0
 *     16  the budget is above 65,535                                          0
 *     17  the input would leave its part outside its limit                    0
 *     18  a value of an expression is of the wrong type, or a far channel     offset of the operator that
 *         is not allowed there                                                gives the value
 *     19  an expression ends early or has bytes left over                     offset of the first byte behind
 *                                                                             it, or of the first left over
 *     20  a default action is not empty                                       offset of its count
 *     21  the conversion would have more than 64 rules                        0
 *     22  the buffer is shorter than the new deck                             0
 *
 * The numbers have names, REACTION_DECK_ENDS to REACTION_BUFFER_TOO_SHORT below; reaction_text.h has the words of this table as
 * texts. The numbers of 2 are counts, labels, kinds, lengths, channel numbers and rule numbers.
 *
 * Where several hold, one of 1, 2, 3, 4, 18, 19 and 20 goes before all others, the first in reading order; the rest go by rising
 * number, but 17 comes after 12 and before 13. An expression is judged when all bytes that its length counts are there: a deck
 * that ends before them is refused by 1. At one byte of an expression, 19 for a missing byte goes before 3, and 3 before 18. The
 * place of 19 may be the deck's length, where an expression ends early and nothing follows: there is no byte to read there.
 *
 * Two forms. The rules of an old deck may have default actions, of one to four assignments; a new deck has none, and the counts
 * of its default actions are 0. reaction_convert takes old decks and never answers 20. All other calls take new ones: there a
 * default action's count above 4 is refused by 2, and one from 1 to 4 by 20.
 *
 * Memory. `deck` and its length are the deck's bytes. `pool` and its length are the lent places, ten numbers each: part,
 * assignment count, four pairs of channel and value. `values` (channel c of part p at 32 * p + c) and `*pending` are the state.
 * A length is that of the array behind its pointer: `pool_length` and `pairs_length` count numbers, not places or pairs. What a
 * call is lent must not overlap, and no other thread may write it during the call; a null pointer is allowed only with a length
 * of 0. A call allocates nothing and keeps no pointer. It needs up to 640 KiB of stack, and up to 64 KiB where the pool has at
 * most 2,048 places or the call is lent none.
 *
 * Answer. `answer[0]` is the refusal's place, 0 when the call is accepted. The other four are the call's answer numbers, in the
 * order below, and 0 where it has none or was refused.
 */
#ifndef REACTION_H
#define REACTION_H

#include <stddef.h>
#include <stdint.h>

/* The version of the headers, and of the crate and the package beside them. */
#define REACTION_VERSION_MAJOR 0
#define REACTION_VERSION_MINOR 1
#define REACTION_VERSION_PATCH 0
#define REACTION_VERSION "0.1.0"

#ifdef __cplusplus
extern "C" {
#endif

enum {
    REACTION_VALUES = 512,            /* numbers of a value table */
    REACTION_CHANNELS = 32,           /* channels of a part in it */
    REACTION_PLACE = 10,              /* numbers of a place of the pool */
    REACTION_PLACES = 65535,          /* places of the longest pool */
    REACTION_ANSWER = 5,              /* numbers of an answer */
    REACTION_LONGEST_DECK = 25987,    /* bytes of the longest new deck that can pass */
    REACTION_LONGEST_OLD_DECK = 42883 /* bytes of the longest old one */
};

/* The numbers of the refusals, which the table above explains. 0 is none: the call was accepted. */
enum reaction_refusal {
    REACTION_DECK_ENDS = 1,
    REACTION_OUT_OF_RANGE = 2,
    REACTION_UNKNOWN_BYTE = 3,
    REACTION_REPEATED_TARGET = 4,
    REACTION_BYTES_FOLLOW = 5,
    REACTION_OPENS_OUTSIDE = 6,
    REACTION_CYCLIC_GRAPH = 7,
    REACTION_OVERCHARGED = 8,
    REACTION_BAD_POOL = 9,
    REACTION_BAD_STATE = 10,
    REACTION_UNKNOWN_PART = 11,
    REACTION_BAD_INPUT = 12,
    REACTION_OVER_CAPACITY = 13,
    REACTION_PLACE_NOT_PENDING = 14,
    REACTION_UNKNOWN_SECTION = 15,
    REACTION_BUDGET_TOO_LARGE = 16,
    REACTION_INPUT_OUTSIDE = 17,
    REACTION_WRONG_TYPE = 18,
    REACTION_WRONG_END = 19,
    REACTION_DEFAULT_RETIRED = 20,
    REACTION_TOO_MANY_RULES = 21,
    REACTION_BUFFER_TOO_SHORT = 22
};

/* A stretch of a deck: it points into the deck that the call was given. It is lent to the call as it stands, so that it must be
 * one before the call too: set it to {NULL, 0} first. (Other bytes that can be read, and that nobody writes during the call, would
 * do as well; numbers that were never set would not.) */
typedef struct reaction_stretch {
    const uint8_t *bytes;
    size_t length;
} reaction_stretch;

/* Whether a deck passes. answer[1..4]: channels, rules, parts, the largest charge of any carried rule. */
uint32_t reaction_check(const uint8_t *deck, size_t deck_length, uint32_t answer[REACTION_ANSWER]);

/* The deck's section `number` (0 channels, 1 rules, 2 parts), from its count to its end; empty where refused. Set *stretch to
 * {NULL, 0} before the call. */
uint32_t reaction_section(const uint8_t *deck, size_t deck_length, uint32_t number, reaction_stretch *stretch,
                          uint32_t answer[REACTION_ANSWER]);

/* The opening values, nothing pending, and the pool all 0. Refused, it leaves the pool as it was, but not the state: that is
 * all 0 then. */
uint32_t reaction_start(const uint8_t *deck, size_t deck_length, int32_t *pool, size_t pool_length,
                        int32_t values[REACTION_VALUES], uint32_t *pending, uint32_t answer[REACTION_ANSWER]);

/* Sets channels of a part: `pairs` is channel, value, channel, value, and pairs_length 4 for these two pairs. answer[1]: the
 * charge added. With all pairs set the part must be within its limit, or the call is refused by 17; what follows from the
 * input, at this part or at others, plays no role in that. */
uint32_t reaction_input(const uint8_t *deck, size_t deck_length, int32_t *pool, size_t pool_length,
                        int32_t values[REACTION_VALUES], uint32_t *pending, uint32_t part, const int32_t *pairs,
                        size_t pairs_length, uint32_t answer[REACTION_ANSWER]);

/* Commits the update at a place of the pool. answer[1]: 1 applied, 0 discarded; answer[2]: the charge now pending. */
uint32_t reaction_commit(const uint8_t *deck, size_t deck_length, int32_t *pool, size_t pool_length,
                         int32_t values[REACTION_VALUES], uint32_t *pending, uint32_t place,
                         uint32_t answer[REACTION_ANSWER]);

/* Commits place 0 until none is pending or `budget` commits are made. answer[1]: commits made; answer[2]: 1 settled, 0 spent. */
uint32_t reaction_settle(const uint8_t *deck, size_t deck_length, int32_t *pool, size_t pool_length,
                         int32_t values[REACTION_VALUES], uint32_t *pending, uint32_t budget,
                         uint32_t answer[REACTION_ANSWER]);

/* Writes an old deck as a new one to the front of `buffer` and leaves the rest of it as it was. answer[1]: the new deck's length,
 * at most REACTION_LONGEST_DECK. From a fresh start the new deck answers every input, commit and settle as the old one did, and
 * leaves the same memory; only what check and section say of it may differ. Each rule with a default action becomes two adjacent
 * ones, first the default action "here" under the condition true, then the rest; the parts' lists of carried rules follow. A deck
 * without default actions comes out as it was. Refused by 1 to 8, 18 and 19 as other calls refuse new decks, rules having their
 * old numbers, then by 21, then by 22; the buffer stays as it was then. */
uint32_t reaction_convert(const uint8_t *deck, size_t deck_length, uint8_t *buffer, size_t buffer_length,
                          uint32_t answer[REACTION_ANSWER]);

#ifdef __cplusplus
}
#endif

#endif
