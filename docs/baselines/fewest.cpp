// The fewest lines for a table of 32,768 lines of 15 bits side by side, in plain C++: the same table, the same algorithm over sets of 256 next
// hops, the same counts and the same check sum as `bench_fewest` prints. g++ -O3 -o fewest fewest.cpp && ./fewest
#include <bitset>
#include <chrono>
#include <cstdint>
#include <cstdio>
#include <vector>

using Set = std::bitset<256>;

struct Need {
    uint32_t count;
    Set hops;
};

constexpr size_t LINES = 32768;
constexpr int ROUNDS = 20;

static uint64_t next(uint64_t seed) { return seed * 6364136223846793005ull + 1442695040888963407ull; }

static Need uniform(uint8_t hop) {
    Need n{0, {}};
    n.hops.set(hop);
    return n;
}

static Need join(const Need &a, const Need &b) {
    Set shared = a.hops & b.hops;
    if (shared.none()) return {a.count + b.count + 1, a.hops | b.hops};
    return {a.count + b.count, shared};
}

int main() {
    std::vector<Need> needs(2 * LINES, uniform(0));
    uint64_t seed = 5;
    for (size_t i = LINES; i < 2 * LINES; i++) {
        seed = next(seed);
        needs[i] = uniform(seed >> 40 & 3);
    }
    auto start = std::chrono::steady_clock::now();
    for (int round = 0; round < ROUNDS; round++)
        for (size_t i = LINES - 1; i >= 1; i--) needs[i] = join(needs[2 * i], needs[2 * i + 1]);
    auto worked = std::chrono::steady_clock::now();
    std::vector<uint8_t> given(2 * LINES, 0);
    uint32_t lines = 0;
    uint64_t sum = 0;
    for (int round = 0; round < ROUNDS; round++) {
        lines = 0;
        sum = 0;
        for (size_t i = 1; i < 2 * LINES; i++) {
            uint8_t hop = given[i], onward = hop;
            if (i >= LINES) {
                uint32_t own = needs[i].count + !needs[i].hops.test(hop);
                lines += own;
                sum = sum * 31 + own;
            } else {
                const Set &low = needs[2 * i].hops, &high = needs[2 * i + 1].hops;
                Set shared = low & high;
                if (!low.test(hop) && !high.test(hop) && shared.any()) {
                    onward = shared._Find_first();
                    lines++;
                }
                given[2 * i] = given[2 * i + 1] = onward;
            }
            sum = sum * 31 + onward;
        }
    }
    auto chosen = std::chrono::steady_clock::now();
    uint32_t needed = needs[1].count + !needs[1].hops.test(0);
    printf("%zu lines of 15 bits: %u needed, %u written, check sum %llu\n", LINES, needed, lines, (unsigned long long)sum);
    auto us = [](auto d) { return (long long)std::chrono::duration_cast<std::chrono::microseconds>(d).count() / ROUNDS; };
    printf("%lld us for the needs, %lld us for the lines\n", us(worked - start), us(chosen - worked));
}
