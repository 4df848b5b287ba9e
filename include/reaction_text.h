/* The refusals of reaction.h in words, for messages. */
#ifndef REACTION_TEXT_H
#define REACTION_TEXT_H

#include "reaction.h"

/* What a call's returned number says. The text lives as long as the program. */
static inline const char *reaction_refusal_text(uint32_t number) {
    switch (number) {
    case 0: return "accepted";
    case REACTION_DECK_ENDS: return "the deck ends inside a field or expression";
    case REACTION_OUT_OF_RANGE: return "a number of the deck is out of its range, or a list does not rise";
    case REACTION_UNKNOWN_BYTE: return "an expression has an unknown operator or channel";
    case REACTION_REPEATED_TARGET: return "a target stands twice in an action";
    case REACTION_BYTES_FOLLOW: return "bytes follow the last section";
    case REACTION_OPENS_OUTSIDE: return "a part opens outside its limit";
    case REACTION_CYCLIC_GRAPH: return "the dependency graph has a cycle";
    case REACTION_OVERCHARGED: return "a carried rule's charge is above 65,535";
    case REACTION_BAD_POOL: return "the pool's length is not a multiple of 10 from 10 to 655,350";
    case REACTION_BAD_STATE: return "the state is not a good one";
    case REACTION_UNKNOWN_PART: return "there is no such part";
    case REACTION_BAD_INPUT: return "the input is not 1 to 32 pairs of known, different channels";
    case REACTION_OVER_CAPACITY: return "the charge after the input would exceed the pool's places";
    case REACTION_PLACE_NOT_PENDING: return "the place is not pending";
    case REACTION_UNKNOWN_SECTION: return "the section number is above 2";
    case REACTION_BUDGET_TOO_LARGE: return "the budget is above 65,535";
    case REACTION_INPUT_OUTSIDE: return "the input would leave its part outside its limit";
    case REACTION_WRONG_TYPE: return "a value of an expression is of the wrong type, or a far channel is not allowed there";
    case REACTION_WRONG_END: return "an expression ends early or has bytes left over";
    case REACTION_DEFAULT_RETIRED: return "a default action is not empty";
    case REACTION_TOO_MANY_RULES: return "the conversion would have more than 64 rules";
    case REACTION_BUFFER_TOO_SHORT: return "the buffer is shorter than the new deck";
    default: return "no refusal of the engine";
    }
}

#endif
