// The reaction engine for C++11 hosts: classes over the seven calls of reaction.h, which says what the calls do.
//
// A Deck is a deck that passed. A Rig is a deck at work and owns the memory that the calls are lent. A call that is
// refused throws a Refusal and leaves the rig as it was; where a start or a resume is refused, there is no rig. Besides,
// only exceptions of the standard library come, where memory is short or a value is asked for that the deck does not have.
#ifndef REACTION_HPP
#define REACTION_HPP

#include "reaction.h"
#include "reaction_text.h"

#include <algorithm>
#include <array>
#include <cstddef>
#include <cstdint>
#include <stdexcept>
#include <string>
#include <utility>
#include <vector>

namespace reaction {

// Why a call was refused.
class Refusal : public std::runtime_error {
public:
    Refusal(const char *call, std::uint32_t number, std::uint32_t place)
        : std::runtime_error(std::string(call) + ": refused " + std::to_string(number) + " " + std::to_string(place) +
                             ": " + reaction_refusal_text(number)),
          call_(call), number_(number), place_(place) {}

    // The name of the call, such as "input". It lives as long as the program.
    const char *call() const noexcept { return call_; }

    // Which refusal it is, such as REACTION_UNKNOWN_PART.
    std::uint32_t number() const noexcept { return number_; }

    // Where, as the table in reaction.h says. A place in a deck may be the deck's length.
    std::uint32_t place() const noexcept { return place_; }

    // What it says, in words; what() has them too, behind the call, the number and the place.
    const char *text() const noexcept { return reaction_refusal_text(number_); }

private:
    const char *call_;
    std::uint32_t number_, place_;
};

namespace detail {

// The five numbers of an answer.
using Answer = std::array<std::uint32_t, REACTION_ANSWER>;

// The answer of a call that returned this number; where it was refused, its refusal is thrown.
inline const Answer &accepted(const char *call, std::uint32_t number, const Answer &answer) {
    if (number != 0)
        throw Refusal(call, number, answer[0]);
    return answer;
}

} // namespace detail

// The sections of a deck: the labels of the channels, the rules, the parts.
enum class Section : std::uint32_t { Channels = 0, Rules = 1, Parts = 2 };

// A deck that passed, with its bytes.
class Deck {
public:
    // The deck that these bytes are. One with default actions is refused by REACTION_DEFAULT_RETIRED: see convert.
    static Deck check(std::vector<std::uint8_t> bytes) {
        detail::Answer answer;
        detail::accepted("check", reaction_check(bytes.data(), bytes.size(), answer.data()), answer);
        return Deck(std::move(bytes), answer);
    }

    // The new deck that an old one becomes, whose rules may have default actions. A new deck stays as it is.
    static Deck convert(const std::vector<std::uint8_t> &old) {
        std::vector<std::uint8_t> bytes(REACTION_LONGEST_DECK); // no new deck is longer
        detail::Answer answer;
        const auto number = reaction_convert(old.data(), old.size(), bytes.data(), bytes.size(), answer.data());
        bytes.resize(detail::accepted("convert", number, answer)[1]);
        return check(std::move(bytes));
    }

    const std::vector<std::uint8_t> &bytes() const noexcept { return bytes_; }
    std::uint32_t channels() const noexcept { return channels_; }
    std::uint32_t rules() const noexcept { return rules_; }
    std::uint32_t parts() const noexcept { return parts_; }

    // The largest charge of any carried rule: so many updates at most follow from one rule that fires.
    std::uint32_t largest_charge() const noexcept { return largest_charge_; }

    // A copy of the bytes of a section, from its count to its end.
    std::vector<std::uint8_t> section(Section section) const {
        const auto which = static_cast<std::uint32_t>(section);
        reaction_stretch stretch = {nullptr, 0};
        detail::Answer answer;
        const auto number = reaction_section(bytes_.data(), bytes_.size(), which, &stretch, answer.data());
        detail::accepted("section", number, answer);
        return std::vector<std::uint8_t>(stretch.bytes, stretch.bytes + stretch.length);
    }

    // So many places always suffice for one input with nothing pending: the most rules that one part carries times the
    // largest charge, at least 1; docs/EMBEDDING.md shows why. Where that is above REACTION_PLACES, the longest pool is
    // returned, and an input may still be refused by REACTION_OVER_CAPACITY.
    std::size_t places_for_an_input() const {
        const std::size_t product = most_carried() * largest_charge_;
        return std::min<std::size_t>(std::max<std::size_t>(product, 1), REACTION_PLACES);
    }

private:
    Deck(std::vector<std::uint8_t> bytes, const detail::Answer &answer)
        : bytes_(std::move(bytes)), channels_(answer[1]), rules_(answer[2]), parts_(answer[3]),
          largest_charge_(answer[4]) {}

    // The most rules that one part carries. A part is its opening values, a count and so many rule numbers, a length and
    // so many bytes of its limit.
    std::size_t most_carried() const {
        const std::vector<std::uint8_t> parts = section(Section::Parts);
        const std::size_t opening = 4 * std::size_t(channels_);
        std::size_t most = 0, at = 1;
        for (std::uint32_t part = 0; part < parts_; ++part) {
            const std::size_t carried = parts.at(at + opening);
            most = std::max(most, carried);
            const std::size_t limit = at + opening + 1 + carried;
            at = limit + 1 + parts.at(limit);
        }
        return most;
    }

    std::vector<std::uint8_t> bytes_;
    std::uint32_t channels_, rules_, parts_, largest_charge_;
};

// A channel, and the value that it has or is to get.
struct Pair {
    std::uint32_t channel;
    std::int32_t value;
};

// A pending update: values that channels of a part are to get.
struct Update {
    std::uint32_t part;
    std::vector<Pair> pairs;
};

// What a commit did.
struct Committed {
    bool applied;         // otherwise the part's limit would have failed, and the update was discarded
    std::uint32_t charge; // now pending: so many commits at most until nothing is
};

// What a settle did.
struct Settled {
    std::uint32_t commits; // made
    bool settled;          // nothing is pending; otherwise the budget was used
};

// What a rig's calls are lent, and all that a host saves of a rig beside the deck.
struct Memory {
    std::array<std::int32_t, REACTION_VALUES> values; // channel c of part p at 32 * p + c
    std::uint32_t pending;
    std::vector<std::int32_t> pool; // ten numbers for each place
};

// A deck at work: its values and the updates that wait to be committed. A rig that was moved from refuses its calls.
class Rig {
public:
    // Starts a deck with its opening values, nothing pending, and so many places for pending updates.
    static Rig start(Deck deck, std::size_t places) {
        // One place too many is refused already, so no more are lent.
        const std::size_t lent = std::min<std::size_t>(places, REACTION_PLACES + 1);
        Rig rig(std::move(deck), Memory{{}, 0, std::vector<std::int32_t>(lent * REACTION_PLACE)});
        rig.call("start", reaction_start);
        return rig;
    }

    // Goes on with memory that was saved. The engine tests it, and refuses it by REACTION_BAD_POOL or REACTION_BAD_STATE
    // where it is not memory for this deck.
    static Rig resume(Deck deck, Memory memory) {
        Rig rig(std::move(deck), std::move(memory));
        rig.call("resume", reaction_settle, 0u); // without commits it tests all and changes nothing
        return rig;
    }

    // Sets channels of a part to values; rules fire for those that change. The charge added.
    std::uint32_t input(std::uint32_t part, const std::vector<Pair> &pairs) {
        // A list is refused for its length from one pair too many on, so no more of it is copied.
        std::array<std::int32_t, 2 * (REACTION_CHANNELS + 1)> numbers;
        const std::size_t count = std::min(pairs.size(), numbers.size() / 2);
        for (std::size_t pair = 0; pair < count; ++pair) {
            // A number beyond 31 bits becomes negative, which is no channel either.
            numbers[2 * pair] = static_cast<std::int32_t>(pairs[pair].channel);
            numbers[2 * pair + 1] = pairs[pair].value;
        }
        return call("input", reaction_input, part, numbers.data(), 2 * count)[1];
    }

    // Commits the pending update at a place; later ones move down.
    Committed commit(std::uint32_t place) {
        const detail::Answer answer = call("commit", reaction_commit, place);
        return Committed{answer[1] == 1, answer[2]};
    }

    // Commits place 0 until nothing is pending or so many commits are made.
    Settled settle(std::uint32_t budget) {
        const detail::Answer answer = call("settle", reaction_settle, budget);
        return Settled{answer[1], answer[2] == 1};
    }

    // The value of a channel of a part; std::out_of_range where the deck has no such part or channel.
    std::int32_t value(std::uint32_t part, std::uint32_t channel) const {
        if (part >= deck_.parts() || channel >= deck_.channels())
            throw std::out_of_range("the deck has no such part or channel");
        return memory_.values[REACTION_CHANNELS * part + channel];
    }

    // The number of pending updates.
    std::uint32_t pending() const noexcept { return memory_.pending; }

    // The pending updates, in the order of their places.
    std::vector<Update> pending_updates() const {
        const std::size_t places = memory_.pool.size() / REACTION_PLACE;
        const std::size_t count = std::min<std::size_t>(memory_.pending, places);
        std::vector<Update> updates;
        updates.reserve(count);
        for (std::size_t place = 0; place < count; ++place)
            updates.push_back(update(&memory_.pool[place * REACTION_PLACE]));
        return updates;
    }

    const Deck &deck() const noexcept { return deck_; }

    // What the engine is lent: all that has to be saved for a resume.
    const Memory &memory() const noexcept { return memory_; }

private:
    Rig(Deck deck, Memory memory) : deck_(std::move(deck)), memory_(std::move(memory)) {}

    // Makes a call on deck and memory; its answer, or its refusal thrown.
    template <typename Call, typename... Request>
    detail::Answer call(const char *name, Call function, Request... request) {
        detail::Answer answer;
        const std::vector<std::uint8_t> &deck = deck_.bytes();
        const std::uint32_t number =
            function(deck.data(), deck.size(), memory_.pool.data(), memory_.pool.size(), memory_.values.data(),
                     &memory_.pending, request..., answer.data());
        return detail::accepted(name, number, answer);
    }

    // The update of a place: its part, the number of its pairs, four pairs.
    static Update update(const std::int32_t *place) {
        Update update{static_cast<std::uint32_t>(place[0]), {}};
        for (std::int32_t pair = 0; pair < place[1]; ++pair)
            update.pairs.push_back({static_cast<std::uint32_t>(place[2 + 2 * pair]), place[3 + 2 * pair]});
        return update;
    }

    Deck deck_;
    Memory memory_;
};

} // namespace reaction

#endif
