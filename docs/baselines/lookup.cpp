// The look-ups of crates/bench in plain C++, to compare with: the same table and addresses, a sorted vector of keys,
// and for each length from 32 down one binary search. Prints the same check sum, and the time.
// g++ -O3 -o /tmp/lookup docs/baselines/lookup.cpp && /tmp/lookup
#include <algorithm>
#include <chrono>
#include <cstdint>
#include <cstdio>
#include <map>
#include <utility>
#include <vector>

using Key = std::pair<uint32_t, uint8_t>; // network, length

static uint64_t next(uint64_t seed) { return seed * 6364136223846793005u + 1442695040888963407u; }
static uint32_t cut(uint32_t a, int len) { return len ? a >> (32 - len) << (32 - len) : 0; }

int main() {
    std::map<Key, uint8_t> lines;
    uint64_t seed = 1;
    while (lines.size() < 32768) {
        seed = next(seed);
        int pick = seed >> 20 & 63;
        int len = pick < 32 ? 24 : pick < 57 ? pick - 24 : 16;
        lines[{cut(seed >> 32, len), len}] = seed >> 12 & 15;
    }
    std::vector<Key> keys;
    std::vector<uint8_t> hops;
    for (auto &[k, h] : lines) keys.push_back(k), hops.push_back(h);
    uint32_t found = 0;
    uint64_t sum = 0;
    seed = 2;
    auto start = std::chrono::steady_clock::now();
    for (int i = 0; i < 1000000; i++) {
        seed = next(seed);
        uint32_t a = seed >> 32;
        for (int len = 32; len >= 0; len--) {
            Key key{cut(a, len), len};
            auto at = std::lower_bound(keys.begin(), keys.end(), key);
            if (at != keys.end() && *at == key) {
                found++;
                sum = sum * 31 + len * 256 + hops[at - keys.begin()];
                break;
            }
        }
    }
    auto ns = std::chrono::duration_cast<std::chrono::nanoseconds>(std::chrono::steady_clock::now() - start).count();
    printf("%zu lines, 1000000 look-ups, %u found, check sum %llu\n%lld ns a look-up\n", keys.size(), found, (unsigned long long)sum, (long long)(ns / 1000000));
}
