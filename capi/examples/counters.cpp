// A map of counters, with typed words: threads count words of a text, one transaction adds to two maps at once, and a reader
// waits by `retry` until there is something to read, in one map or else in the other.
#include "nekchhaul.hpp"

#include <cstdio>
#include <thread>

namespace nh = nekchhaul;

namespace {
constexpr size_t places = 64;

// Open addressing: keys from 1 on, 0 where a place is free. What it does is a part of the attempt that it is given.
class counters {
    nh::words<uint64_t> keys_;
    nh::words<int64_t> counts_;

public:
    explicit counters(nh::layout &l) : keys_(l.array<uint64_t>(places)), counts_(l.array<int64_t>(places)) {}

    void add(nh::attempt &t, uint64_t key, int64_t by) const
    {
        for (size_t step = 0; step < places; step++) {
            size_t i = (key * 11 + step) % places;
            uint64_t there = t.read(keys_[i]);
            if (there != 0 && there != key) continue;
            if (there == 0) t.write(keys_[i], key);
            t.write(counts_[i], t.read(counts_[i]) + by);
            return;
        }
        throw std::length_error("the map is full"); // and the transaction leaves nothing
    }

    std::optional<int64_t> find(nh::attempt &t, uint64_t key) const
    {
        for (size_t step = 0; step < places; step++) {
            size_t i = (key * 11 + step) % places;
            uint64_t there = t.read(keys_[i]);
            if (there == key) return t.read(counts_[i]);
            if (there == 0) break;
        }
        return std::nullopt;
    }
};

struct maps {
    nh::layout layout;
    counters odd{layout}, even{layout}, all{layout};
};

// Counts in the map that a key belongs to, and in that of all. The inner transaction is a part of the outer one.
void count(nh::caller &mine, const maps &m, uint64_t key)
{
    mine.atomically([&](auto &t) {
        (key % 2 ? m.odd : m.even).add(t, key, 1);
        mine.atomically([&](auto &inner) { m.all.add(inner, 1 + key % 2, 1); });
    });
}

// The first count of the key, as soon as there is one in either map.
int64_t wait_for(nh::caller &mine, const maps &m, uint64_t key)
{
    auto in = [&](const counters &map) {
        return [&](nh::attempt &t) {
            auto found = map.find(t, key);
            if (!found) t.retry();
            return *found;
        };
    };
    return mine.atomically([&](auto &t) { return t.or_else(in(m.odd), in(m.even)); });
}

int run(nh::algorithm algorithm)
{
    maps m;
    auto callers = nh::open({m.layout.size(), 256, 64, 256, 64, 0}, algorithm, 4);
    auto reader = std::move(callers.back());
    callers.pop_back();
    int64_t seen = 0;
    std::thread waits([&] { seen = wait_for(reader, m, 18); });
    std::vector<std::thread> threads;
    for (auto &mine : callers) {
        threads.emplace_back([&mine, &m] {
            for (uint64_t i = 0; i < 4000; i++) count(mine, m, 1 + i % 20);
        });
    }
    for (auto &t : threads) t.join();
    waits.join();
    int wrong = seen < 1;
    try {
        reader.atomically([&](auto &t) {
            for (uint64_t key = 100;; key++) m.all.add(t, key, 1);
        });
        wrong++;
    } catch (const std::length_error &) {
    }
    auto sums = reader.atomically([&](auto &t) { return std::pair(m.all.find(t, 1), m.all.find(t, 2)); });
    auto one = reader.atomically([&](auto &t) { return m.odd.find(t, 7); });
    wrong += sums != std::pair(std::optional<int64_t>(6000), std::optional<int64_t>(6000)) || one != 600;
    wrong += reader.atomically([&](auto &t) { return m.all.find(t, 100).has_value(); });
    return wrong;
}
} // namespace

int main()
{
    int wrong = 0;
    for (auto a : {nh::algorithm::cgl, nh::algorithm::tml, nh::algorithm::orec_lazy, nh::algorithm::orec_eager, nh::algorithm::ring_sw, nh::algorithm::serial}) wrong += run(a);
    if (wrong) std::printf("%d wrong\n", wrong);
    return wrong != 0;
}
