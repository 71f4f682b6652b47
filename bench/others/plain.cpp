// The plain dynamic program over all sets of scenes: what the scenes of a set cost in waiting when they are shot
// last depends on the set alone. It reads what film.py writes, and prints the cost. Up to 28 scenes.
#include <algorithm>
#include <cstdint>
#include <iostream>
#include <vector>

using Set = std::uint32_t;

// The joined casts, or the summed rates, of the members of a set: one table for each eight of them.
template <class Join> struct Table {
    std::vector<std::uint32_t> parts[4];
    Table(const std::vector<std::uint32_t>& of, Join join) : join(join) {
        for (int part = 0; part < 4; ++part) {
            parts[part].assign(256, 0);
            for (Set set = 1; set < 256; ++set) {
                std::size_t member = 8 * part + __builtin_ctz(set);
                parts[part][set] = join(parts[part][set & (set - 1)], member < of.size() ? of[member] : 0);
            }
        }
    }
    std::uint32_t operator()(Set set) const {
        return join(join(parts[0][set & 255], parts[1][set >> 8 & 255]),
                    join(parts[2][set >> 16 & 255], parts[3][set >> 24]));
    }
    Join join;
};

int main() {
    std::size_t scenes, actors;
    std::uint32_t base;
    std::cin >> scenes >> actors >> base;
    if (scenes > 28 || actors > 32) return 1;
    std::vector<std::uint32_t> days(scenes), hold(actors), casts(scenes);
    for (auto& number : days) std::cin >> number;
    for (auto& number : hold) std::cin >> number;
    for (auto& cast : casts) std::cin >> cast;
    auto joined = [](std::uint32_t one, std::uint32_t other) { return one | other; };
    auto added = [](std::uint32_t one, std::uint32_t other) { return one + other; };
    Table casts_of(casts, joined);
    Table holds_of(hold, added);
    Set all = (Set(1) << scenes) - 1;
    std::vector<std::uint32_t> least(std::size_t(all) + 1, 0);
    for (Set rest = 1; rest <= all; ++rest) {
        // Who works in the scenes of the set and in others waits in those scenes of the set in which he doesn't.
        Set here = casts_of(rest) & casts_of(all & ~rest);
        std::uint32_t best = UINT32_MAX;
        for (Set left = rest; left; left &= left - 1) {
            int scene = __builtin_ctz(left);
            best = std::min(best, holds_of(here & ~casts[scene]) * days[scene] + least[rest & ~(Set(1) << scene)]);
        }
        least[rest] = best;
    }
    std::cout << "cost " << base + least[all] << "\n";
}
