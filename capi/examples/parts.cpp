// Random bodies inside bodies beside a copy of plain words, which is put back wherever a body stops: each read finds what the copy
// has, and so does the memory at the end. Four threads, each with eight words of its own and logs that are too short at first.
#include "nekchhaul.hpp"

#include <algorithm>
#include <cstdio>
#include <random>
#include <thread>

namespace nh = nekchhaul;

namespace {
constexpr size_t threads = 4, words = 8, rounds = 600;
struct stop {};

struct parts {
    nh::caller &caller;
    size_t first; // of its words
    std::vector<uint64_t> copy = std::vector<uint64_t>(words), before = copy;
    bool wrong = false;

    // A body of up to five steps, on both.
    void body(nh::attempt &t, std::mt19937_64 &draw, int depth)
    {
        for (auto left = draw() % 6; left > 0; left--) {
            size_t at = draw() % words;
            uint64_t kind = draw() % (depth < 6 ? 8 : 5);
            if (kind < 2) t.write(first + at, copy[at] = draw());
            else if (kind < 4) wrong |= t.read(first + at) != copy[at];
            else if (kind == 4 && draw() % 32 == 0) throw stop();
            else if (kind == 5) alone([&](auto f) { caller.atomically(f); }, draw, depth + 1);
            else if (kind == 6) alone([&](auto f) { t.nested(f); }, draw, depth + 1);
            else if (kind == 7) either(t, draw, depth + 1);
        }
    }

    // One of which nothing is left where it stops.
    template <class R> void alone(R run_part, std::mt19937_64 &draw, int depth)
    {
        auto kept = copy;
        try {
            run_part([&](nh::attempt &inner) {
                body(inner, draw, depth);
                if (draw() % 2) throw stop();
            });
        } catch (const stop &) {
            copy = kept;
        }
    }

    // Two of which the second is run where the first is to be retried.
    void either(nh::attempt &t, std::mt19937_64 &draw, int depth)
    {
        auto kept = copy;
        bool retries = draw() % 2;
        t.or_else(
            [&](nh::attempt &inner) {
                body(inner, draw, depth);
                if (retries) inner.retry();
            },
            [&](nh::attempt &inner) {
                copy = kept;
                body(inner, draw, depth);
            });
    }

    // A transaction; each attempt of it draws the same.
    void run(uint64_t seed)
    {
        before = copy;
        try {
            caller.atomically([&](nh::attempt &t) {
                std::mt19937_64 draw(seed);
                copy = before;
                body(t, draw, 0);
                if (draw() % 4 == 0) throw stop();
            });
        } catch (const stop &) {
            copy = before;
        }
    }
};

bool is_right(nh::algorithm algorithm)
{
    auto callers = nh::open({threads * words, 8, 8, 4, 4, 0}, algorithm, threads);
    std::vector<parts> all;
    for (size_t k = 0; k < threads; k++) all.push_back({callers[k], k * words});
    std::vector<std::thread> running;
    for (auto &p : all) {
        running.emplace_back([&p] {
            std::mt19937_64 seeds(p.first + 1);
            for (size_t i = 0; i < rounds; i++) p.run(seeds());
        });
    }
    for (auto &t : running) t.join();
    auto memory = callers[0].close(threads * words);
    for (auto &p : all) {
        if (p.wrong || !std::equal(p.copy.begin(), p.copy.end(), memory.begin() + static_cast<std::ptrdiff_t>(p.first))) return false;
    }
    return true;
}
} // namespace

int main()
{
    for (auto a : {nh::algorithm::cgl, nh::algorithm::tml, nh::algorithm::orec_lazy, nh::algorithm::orec_eager, nh::algorithm::ring_sw, nh::algorithm::serial}) {
        if (is_right(a)) continue;
        std::printf("algorithm %u went wrong\n", static_cast<unsigned>(a));
        return 1;
    }
    return 0;
}
