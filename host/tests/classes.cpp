// The classes of include/reaction.hpp on deck D of document 01, and on a deck with default actions.
//
//     classes DECK        DECK: the bytes of deck D
#include "reaction.hpp"

#include <cstdio>
#include <cstdlib>
#include <fstream>
#include <functional>
#include <iterator>

using reaction::Deck;
using reaction::Memory;
using reaction::Rig;
using reaction::Section;

static void expect(bool holds, const char *what) {
    if (!holds) {
        std::printf("not so: %s\n", what);
        std::exit(1);
    }
}

// Expects that something is refused by this number, at this place, with the words.
static void expect_refused(uint32_t number, uint32_t place, const std::function<void()> &call) {
    try {
        call();
    } catch (const reaction::Refusal &refusal) {
        expect(refusal.number() == number && refusal.place() == place, refusal.what());
        expect(std::string(refusal.what()).find(reaction_refusal_text(number)) != std::string::npos, refusal.what());
        return;
    }
    expect(false, reaction_refusal_text(number));
}

static bool equal(const Memory &a, const Memory &b) {
    return a.values == b.values && a.pending == b.pending && a.pool == b.pool;
}

static void decks(const std::vector<uint8_t> &bytes) {
    const Deck deck = Deck::check(bytes);
    expect(deck.channels() == 3 && deck.rules() == 2 && deck.parts() == 2 && deck.largest_charge() == 2, "counts");
    expect(deck.section(Section::Channels) == std::vector<uint8_t>({3, 'a', 'b', 'c'}), "channels");
    expect(deck.section(Section::Parts).size() == 42, "parts");
    expect(deck.places_for_an_input() == 4, "two rules at a part, of charge 2 at most");
    expect(Deck::convert(bytes).bytes() == bytes, "a new deck stays as it is");
    expect_refused(REACTION_DECK_ENDS, 0, [] { Deck::check({}); });
    expect_refused(REACTION_DECK_ENDS, 0, [] { Deck::convert({}); });
    // Channels a and b; a rule with event a, the default action b = a and no other action; a part that carries it.
    const std::vector<uint8_t> old = {2, 'a', 'b', 1, 1, 0, 1, 1, 2, 1, 0, 0, 1, 0x11, 0, 1,
                                      0, 0, 0, 0, 0, 0, 0, 0, 1, 0, 1, 0x11};
    expect_refused(REACTION_DEFAULT_RETIRED, 6, [&] { Deck::check(old); });
    expect(Deck::convert(old).rules() == 2, "a default action becomes a rule");
}

static void calls(const Deck &deck) {
    Rig rig = Rig::start(deck, 2);
    expect(rig.input(0, {{0, 4}}) == 2 && rig.pending() == 1, "an input");
    const auto updates = rig.pending_updates();
    expect(updates.size() == 1 && updates[0].part == 1 && updates[0].pairs.size() == 1, "the update");
    expect(updates[0].pairs[0].channel == 1 && updates[0].pairs[0].value == 4, "its pair");
    const reaction::Committed committed = rig.commit(0);
    expect(committed.applied && committed.charge == 1, "a commit");
    const reaction::Settled settled = rig.settle(9);
    expect(settled.settled && settled.commits == 1 && rig.pending() == 0, "a settle");
    expect(rig.value(1, 1) == 4 && rig.value(1, 2) == 5, "values");
    for (const auto &beyond : std::vector<std::pair<uint32_t, uint32_t>>{{2, 0}, {0, 3}}) {
        try {
            rig.value(beyond.first, beyond.second);
            expect(false, "no such value");
        } catch (const std::out_of_range &) {
        }
    }
}

// A refused call leaves the rig as it was.
static void refusals(const Deck &deck) {
    Rig rig = Rig::start(deck, 2);
    rig.input(0, {{0, 4}});
    const Memory before = rig.memory();
    expect_refused(REACTION_UNKNOWN_PART, 0, [&] { rig.input(2, {{0, 4}}); });
    expect_refused(REACTION_BAD_INPUT, 0, [&] { rig.input(0, {}); });
    expect_refused(REACTION_BAD_INPUT, 0, [&] { rig.input(0, {{0x80000000u, 4}}); });
    expect_refused(REACTION_BAD_INPUT, 0, [&] { rig.input(0, std::vector<reaction::Pair>(100)); });
    expect_refused(REACTION_OVER_CAPACITY, 0, [&] { rig.input(0, {{0, 5}}); });
    expect_refused(REACTION_INPUT_OUTSIDE, 0, [&] { rig.input(1, {{2, 10}}); });
    expect_refused(REACTION_PLACE_NOT_PENDING, 0, [&] { rig.commit(1); });
    expect_refused(REACTION_BUDGET_TOO_LARGE, 0, [&] { rig.settle(65536); });
    expect(equal(rig.memory(), before), "as it was");
    for (size_t places : {size_t(0), size_t(65536), SIZE_MAX})
        expect_refused(REACTION_BAD_POOL, 0, [&] { Rig::start(deck, places); });
    Rig taken = std::move(rig);
    expect(equal(taken.memory(), before), "moved");
    expect_refused(REACTION_DECK_ENDS, 0, [&] { rig.settle(0); });
    expect(rig.pending_updates().empty(), "moved from");
}

static void saved_memory(const Deck &deck) {
    Rig rig = Rig::start(deck, 2);
    rig.input(0, {{0, 4}});
    Memory saved = rig.memory();
    Rig resumed = Rig::resume(deck, saved);
    expect(equal(resumed.memory(), saved), "resumed as it was saved");
    resumed.settle(9);
    expect(resumed.value(1, 2) == 5 && rig.value(1, 2) == 0, "each rig has its own memory");
    Memory longer = saved, shorter = saved;
    longer.pool.resize(3 * REACTION_PLACE);
    expect(Rig::resume(deck, longer).pending() == 1, "a longer pool");
    shorter.pool.resize(REACTION_PLACE); // a charge of 2 is pending
    expect_refused(REACTION_BAD_STATE, 0, [&] { Rig::resume(deck, shorter); });
    saved.pool[0] = 2; // the deck has no part 2
    expect_refused(REACTION_BAD_STATE, 0, [&] { Rig::resume(deck, saved); });
    saved.pool.pop_back();
    expect_refused(REACTION_BAD_POOL, 0, [&] { Rig::resume(deck, saved); });
}

int main(int argc, char **argv) {
    std::ifstream file(argc == 2 ? argv[1] : "", std::ios::binary);
    const std::vector<uint8_t> bytes((std::istreambuf_iterator<char>(file)), std::istreambuf_iterator<char>());
    decks(bytes);
    const Deck deck = Deck::check(bytes);
    calls(deck);
    refusals(deck);
    saved_memory(deck);
    return 0;
}
