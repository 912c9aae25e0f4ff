/*
 * The paper's example: 1 is written to location 1 or 0, as variable 8 says; then location 0 is read, and checked
 * against 1. What it prints is what memcase prints of the same case.
 */
#include <iostream>

#include "mangerday.hpp"

using namespace mangerday;

int main()
try {
    Memory memory(1, 1);
    const Condition a = memory.variable(8);

    const auto place = memory.write(Bit::one(), {Bit::of(a)}, {Bit::one()});
    std::cout << "write " << (place ? std::to_string(*place) : "idle") << "\n";

    const Word read = memory.read(0, Bit::one(), word(0, 1));
    std::cout << "read " << text(read) << "\n";

    memory.check(Condition::one(), word(0, 1), word(1, 1));
    std::cout << "check " << memory.checked().text() << "\n";
    std::cout << "end " << memory.entries() << "\n";

    // Where the check fails, if it does: here where variable 8 is 1.
    const auto fails = (!memory.checked()).witness();
    return fails == std::uint64_t(1) << 8 ? 0 : 1;
} catch (const Refusal &refusal) {
    std::cerr << "refused by row " << refusal.row() << ": " << refusal.what() << "\n";
    return 1;
}
