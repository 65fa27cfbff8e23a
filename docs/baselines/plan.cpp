// The plans of crates/bench in plain C++, to compare with: the same tables as sorted vectors, the lines that differ found by going along both,
// and the writes sorted. Prints the same counts and check sums, and the time.
// g++ -O3 -o /tmp/plan docs/baselines/plan.cpp && /tmp/plan
#include <algorithm>
#include <chrono>
#include <cstdint>
#include <cstdio>
#include <map>
#include <utility>
#include <vector>

using Key = std::pair<uint32_t, uint8_t>; // network, length
struct Line { Key key; uint8_t hop; };
struct Write { uint8_t kind; Line line; };
using Table = std::vector<Line>;

static uint64_t next(uint64_t seed) { return seed * 6364136223846793005u + 1442695040888963407u; }
static uint32_t cut(uint32_t a, int len) { return len ? a >> (32 - len) << (32 - len) : 0; }

static Table fill(uint64_t seed, size_t count, uint64_t turn) {
    std::map<Key, uint8_t> lines;
    while (lines.size() < count) {
        seed = next(seed);
        int pick = seed >> 20 & 63;
        int len = pick < 32 ? 24 : pick < 57 ? pick - 24 : 16;
        lines[{cut(seed >> 32, len), len}] = ((seed >> 12) + turn) & 15;
    }
    Table table;
    for (auto &[k, h] : lines) table.push_back({k, h});
    return table;
}

// the writes, or 7
static int plan(const Table &old, const Table &now, std::vector<Write> &out) {
    out.clear();
    size_t fresh = 0, i = 0, j = 0;
    std::vector<Line> drops;
    while (i < old.size() || j < now.size()) {
        if (j == now.size() || (i < old.size() && old[i].key < now[j].key)) drops.push_back(old[i++]);
        else if (i == old.size() || now[j].key < old[i].key) fresh++, out.push_back({16, now[j++]});
        else {
            if (old[i].hop != now[j].hop) out.push_back({16, now[j]});
            i++, j++;
        }
    }
    if (old.size() + fresh > 16384) return 7;
    std::stable_sort(out.begin(), out.end(), [](auto &a, auto &b) { return a.line.key.second > b.line.key.second; });
    std::stable_sort(drops.begin(), drops.end(), [](auto &a, auto &b) { return a.key.second < b.key.second; });
    for (auto &d : drops) out.push_back({17, {d.key, 0}});
    return 0;
}

static void go(const char *name, const Table &old, const Table &now) {
    std::vector<Write> writes;
    auto start = std::chrono::steady_clock::now();
    int refused = 0;
    for (int i = 0; i < 20; i++) refused = plan(old, now, writes);
    auto us = std::chrono::duration_cast<std::chrono::microseconds>(std::chrono::steady_clock::now() - start).count() / 20;
    uint64_t sum = 0;
    for (auto &w : writes) sum = (sum * 31 + w.kind * 65536 + w.line.key.second * 256 + w.line.hop) * 31 + w.line.key.first;
    if (refused) printf("%s: refused %d\n", name, refused);
    else printf("%s: %zu writes, check sum %llu\n", name, writes.size(), (unsigned long long)sum);
    printf("%lld us a plan\n", (long long)us);
}

int main() {
    Table full = fill(3, 16384, 0), empty;
    go("other next hops", full, fill(3, 16384, 1));
    go("other prefixes", fill(3, 8192, 0), fill(4, 8192, 0));
    go("from empty", empty, full);
    go("to empty", full, empty);
    go("too many", full, fill(4, 16384, 0));
}
