// A leg that walks: the knee bends step by step, and what follows is committed, the newest update first.
//
//     walk DECK        DECK: the bytes of the deck examples/leg/leg.txt
#include "reaction.hpp"

#include <cstdio>
#include <fstream>
#include <iterator>
#include <vector>

// Parts of the left leg, and channels.
enum Part { KNEE = 1, ANKLE = 2, THIGH = 3, CALF = 4 };
enum Channel { BEND = 2, TILT = 3, BULGE = 4 };

// Enters a bend of a part and commits until nothing is pending.
static void bend(reaction::Rig &rig, uint32_t part, int degrees) {
    int applied = 0, discarded = 0; // discarded where the part's limit would have failed
    rig.input(part, {{BEND, degrees}});
    while (rig.pending() > 0)
        ++(rig.commit(rig.pending() - 1).applied ? applied : discarded);
    std::printf("bend %d: %d applied, %d discarded; thigh bulges %d, calf %d; ankle tilts %d\n", degrees, applied,
                discarded, rig.value(THIGH, BULGE), rig.value(CALF, BULGE), rig.value(ANKLE, TILT));
}

int main(int argc, char **argv) {
    std::ifstream file(argc == 2 ? argv[1] : "", std::ios::binary);
    if (!file) {
        std::fprintf(stderr, "usage: walk DECK\n");
        return 2;
    }
    const std::vector<uint8_t> bytes((std::istreambuf_iterator<char>(file)), std::istreambuf_iterator<char>());
    bool walked = false;
    try {
        const reaction::Deck deck = reaction::Deck::check(bytes);
        std::printf("%d channels, %d rules, %d parts\n", int(deck.channels()), int(deck.rules()), int(deck.parts()));
        reaction::Rig rig = reaction::Rig::start(deck, 40);
        for (int degrees : {10, 35, 55})
            bend(rig, KNEE, degrees);
        walked = true;
        bend(rig, 99, 10); // the deck has no part 99
    } catch (const reaction::Refusal &refusal) {
        // As the other two print it; refusal.what() has the words as well.
        std::printf("%s: refused %d %d\n", refusal.call(), int(refusal.number()), int(refusal.place()));
    }
    return walked ? 0 : 1;
}
