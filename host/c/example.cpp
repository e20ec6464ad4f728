// The header from C++: the distances of five cells of which one is marked, and a refusal.
//
// To build it, in the project's root: c++ -Ihost host/c/example.cpp target/staticlib/libhost.a -o example
#include <iostream>

#include "safeteal.h"

int main() {
    uint8_t cells[] = {255, 255, 0, 255, 255};
    const auto number = safeteal_number(safeteal_distances(cells, sizeof cells, sizeof cells));
    for (const uint8_t cell : cells) {
        std::cout << static_cast<int>(cell) << ' ';
    }
    std::cout << safeteal_refusal_words(number) << '\n';

    const auto refused = safeteal_number(safeteal_distances(cells, sizeof cells, 0));
    std::cout << safeteal_refusal_words(refused) << '\n';
    return number == SAFETEAL_ACCEPTED && refused == SAFETEAL_REFUSED_SIZE && cells[0] == 2 ? 0 : 1;
}
