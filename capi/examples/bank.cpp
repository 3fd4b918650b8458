// The bank in C++: callers that clean up behind themselves, transactions as lambdas.
#include "nekchhaul.hpp"

#include <cstdio>
#include <thread>

namespace {
constexpr size_t accounts = 64;
constexpr uint64_t balance = 1000;

void trade(nekchhaul::caller &mine, uint64_t x)
{
    for (int i = 0; i < 30000; i++) {
        x ^= x << 13;
        x ^= x >> 7;
        x ^= x << 17;
        size_t from = x % accounts, to = (from + 1 + (x >> 20) % (accounts - 1)) % accounts;
        uint64_t amount = (x >> 40) % 100;
        mine.atomically([&](auto &t) {
            uint64_t payer = t.read(from), payee = t.read(to);
            if (payer < amount) return;
            t.write(from, payer - amount);
            t.write(to, payee + amount);
        });
    }
}

int audit(nekchhaul::caller &auditor, uint32_t algorithm)
{
    int wrong = 0;
    std::vector<size_t> all(accounts);
    for (size_t k = 0; k < accounts; k++) all[k] = k;
    for (uint32_t i = 0; i < 1000; i++) {
        uint64_t sum = auditor.atomically([&](auto &t) {
            uint64_t s = 0;
            for (uint64_t word : t.read_many(all)) s += word;
            return s;
        });
        wrong += sum != accounts * balance;
        if (i % 64 == 0) auditor.install(nekchhaul::algorithm((algorithm + i / 64 + 1) % 6));
    }
    return wrong;
}

// A misuse is an error, a body's own exception leaves no trace, and a body that meets its caller's own range is an error.
int refusals(nekchhaul::caller &c)
{
    int wrong = 0;
    c.install(nekchhaul::algorithm::cgl);
    try {
        c.atomically([&](auto &t) { t.read(accounts); });
        wrong++;
    } catch (const nekchhaul::error &e) {
        wrong += e.status != NEKCHHAUL_ADDRESS;
    }
    try {
        c.atomically([&](auto &t) {
            t.write(0, t.read(0) + 1);
            throw 5;
        });
        wrong++;
    } catch (int) {
    }
    c.take_range(0, 1);
    c.direct_write(0, c.direct_read(0));
    try {
        c.atomically([&](auto &t) { t.write(0, 1); });
        wrong++;
    } catch (const nekchhaul::error &e) {
        wrong += e.status != NEKCHHAUL_FENCED;
    }
    c.return_range();
    return wrong;
}
} // namespace

int main()
{
    int wrong = 0;
    for (uint32_t a = 0; a < 6; a++) {
        auto callers = nekchhaul::open({accounts, 64, 64, 128, 64, 0}, nekchhaul::algorithm(a), 4);
        auto &auditor = callers[3];
        auditor.atomically([&](auto &t) {
            for (size_t i = 0; i < accounts; i++) t.write(i, balance);
        });
        for (size_t n = 0; n < 3; n++) callers[n].learn(auditor);
        std::vector<std::thread> threads;
        for (size_t n = 0; n < 3; n++) threads.emplace_back([mine = std::move(callers[n]), n]() mutable { trade(mine, 88172645463325252u + n); });
        wrong += audit(auditor, a);
        for (auto &t : threads) t.join();
        wrong += refusals(auditor);
        uint64_t sum = 0;
        for (uint64_t word : auditor.close(accounts)) sum += word;
        wrong += sum != accounts * balance;
    }
    if (wrong) std::printf("%d wrong\n", wrong);
    return wrong != 0;
}
