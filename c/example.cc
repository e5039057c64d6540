// example.c for C++, on vectors. An empty vector's data() may be null, and is lent like any other.
#include "olikumpasho.h"
#include <cstdio>
#include <stdexcept>
#include <string>
#include <vector>

static void accepted(uint64_t answer)
{
    if (answer == OLIKUMPASHO_ACCEPTED) return;
    throw std::runtime_error("refused: number " + std::to_string(OLIKUMPASHO_NUMBER(answer)) + ", place " + std::to_string(OLIKUMPASHO_PLACE(answer)));
}

class Desk {
    std::vector<uint64_t> words;

public:
    Desk(uint64_t variables, const std::vector<uint64_t> &table, uint64_t capacity) : words(OLIKUMPASHO_DESK_WORDS(capacity))
    {
        accepted(olikumpasho_load(variables, table.data(), table.size(), capacity, words.data(), words.size()));
    }
    void decide(int64_t literal) { accepted(olikumpasho_decide(words.data(), words.size(), literal)); }
    std::vector<uint64_t> bound(uint64_t choice = OLIKUMPASHO_UNITS) const
    {
        std::vector<uint64_t> losses(OLIKUMPASHO_LOSSES_WORDS);
        accepted(olikumpasho_bound(words.data(), words.size(), choice, losses.data()));
        return losses;
    }
    std::vector<uint64_t> search(uint32_t budget, uint64_t choice = OLIKUMPASHO_UNITS) const
    {
        std::vector<uint64_t> found(OLIKUMPASHO_FOUND_WORDS);
        accepted(olikumpasho_search(words.data(), words.size(), choice, budget, found.data()));
        return found;
    }
};

int main()
{
    try {
        if (Desk(0, {}, 0).bound() != std::vector<uint64_t>{0, 0, 0}) return 1; // no variables and no rows
        static const char *const ends[] = {"done", "stopped", "impossible"};
        Desk desk(3, {1, 0, 5, OLIKUMPASHO_SOFT, 0, 2, 5, OLIKUMPASHO_SOFT, 2, 4, 4, OLIKUMPASHO_SOFT, 4, 0, 2, OLIKUMPASHO_SOFT}, 8);
        const auto found = desk.search(100);
        desk.decide(3);
        std::printf("%s: weight %llu, reading %llu, %llu nodes\n", ends[found[OLIKUMPASHO_FOUND_STATUS]],
                    static_cast<unsigned long long>(found[OLIKUMPASHO_FOUND_WEIGHT]), static_cast<unsigned long long>(found[OLIKUMPASHO_FOUND_READING]),
                    static_cast<unsigned long long>(found[OLIKUMPASHO_FOUND_NODES]));
        const auto losses = desk.bound();
        std::printf("with 3 true, %llu lost and %llu foreseen\n", static_cast<unsigned long long>(losses[OLIKUMPASHO_LOSSES_LOST]),
                    static_cast<unsigned long long>(losses[OLIKUMPASHO_LOSSES_FORESEEN]));
    } catch (const std::runtime_error &refusal) {
        std::puts(refusal.what());
        return 1;
    }
}
