// Each call of nekchhaul.hpp, and what it refuses. Ends with 0, or prints the lines that went wrong.
#include "nekchhaul.hpp"

#include <cstdio>

namespace nh = nekchhaul;

namespace {
int wrong;

#define IS(what) do { if (!(what)) { std::printf("calls.cpp:%d: not so: %s\n", __LINE__, #what); wrong = 1; } } while (0)

// The status of the error that it ends with; 0 where it ends well.
template <class F> uint32_t status_of(F &&call)
{
    try {
        call();
        return NEKCHHAUL_OK;
    } catch (const nh::error &e) {
        return e.status;
    }
}

struct thrown {
    int number;
};

void words(nh::caller &c)
{
    nh::layout l;
    auto number = l.place<double>();
    auto letters = l.array<char>(2);
    struct pair { uint32_t a; int16_t b; };
    auto two = l.place<pair>();
    IS(l.size() == 4);
    c.atomically([&](auto &t) {
        t.write(number, -2.5);
        t.write(letters[1], 'x');
        t.write(two, pair{7, -3});
    });
    IS(c.atomically([&](auto &t) { return t.read(number); }) == -2.5);
    IS(c.atomically([&](auto &t) { return t.read(letters[0]) == 0 && t.read(letters[1]) == 'x'; }));
    IS(c.atomically([&](auto &t) { return t.read(two).b; }) == -3);
    IS(status_of([&] { (void)letters[2]; }) == NEKCHHAUL_ADDRESS);
    c.take_range(0, 1);
    c.direct_write(number, c.direct_read(number) * 2);
    c.return_range();
    IS(c.atomically([&](auto &t) { return t.read(number); }) == -5.0);
}

// An attempt by hand, and many writes in one call.
void by_hand(nh::caller &c, nh::caller &other)
{
    {
        nh::begun t = c.begin();
        t.write_many({3, 0, 3}, {1, 2, 3});
        IS((t.read_many({3, 0}) == std::vector<uint64_t>{3, 2}));
        IS(status_of([&] { t.write_many({1, 4}, {5, 5}); }) == NEKCHHAUL_ADDRESS);
        IS(status_of([&] { t.write_many({1, 2}, {6}); }) == NEKCHHAUL_ROOM && status_of([&] { t.write_many({1}, {}); }) == NEKCHHAUL_ROOM);
        IS(t.read(1) == 5);
        t.commit();
        IS(status_of([&] { t.read(1); }) == NEKCHHAUL_NO_ATTEMPT);
    }
    c.begin().write(1, 7);
    {
        nh::begun t = c.begin();
        IS(status_of([&] { t.retry(); }) == NEKCHHAUL_RETRY);
        IS(status_of([&] { c.atomically([](auto &inner) { inner.retry(); }); }) == NEKCHHAUL_RETRY);
        IS(t.or_else([](nh::attempt &first) -> int { first.retry(); }, [](auto &) { return 3; }) == 3);
        t.write(1, 8);
        t.cancel();
    }
    IS(c.atomically([](auto &inner) { return inner.read(1); }) == 5);
    IS(status_of([&] { c.atomically([](auto &inner) { inner.write_many({0, 1}, {1}); }); }) == NEKCHHAUL_ROOM);
    other.take_range(0, 1);
    {
        nh::begun beside = c.begin();
        IS(status_of([&] { beside.read(0); }) == NEKCHHAUL_FENCED && beside.read(1) == 5);
    }
    other.return_range();
    c.atomically([](auto &inner) { inner.write_many({0, 1, 3}, {0, 0, 0}); });
    IS((nh::version() & ~NEKCHHAUL_UNPROVED) == 65536u * NEKCHHAUL_VERSION_MAJOR + NEKCHHAUL_VERSION_MINOR && nh::sizes_of(4).words == 4);
}

void marks(nh::caller &c)
{
    c.atomically([&](auto &t) {
        t.write(0, 1);
        size_t one = t.checkpoint();
        t.write(0, 2);
        size_t two = t.checkpoint();
        t.write(0, 3);
        IS(t.state().marks == 2);
        t.roll_to(two);
        IS(t.read(0) == 2);
        t.drop_marks(two);
        t.roll_to(one);
        IS(t.read(0) == 1 && t.state().marks == 1);
    });
    IS(status_of([&] { c.atomically([&](auto &t) { t.roll_to(1); }); }) == NEKCHHAUL_DEPTH);
    IS(status_of([&] { c.atomically([&](auto &t) { for (;;) t.checkpoint(); }); }) == NEKCHHAUL_DEEP);
}

void nesting(nh::caller &c)
{
    // a part that stops leaves nothing, and the rest may go on
    c.atomically([&](auto &t) {
        t.write(0, 5);
        try {
            t.nested([](auto &inner) {
                inner.write(0, 6);
                inner.write(1, 6);
                throw thrown{1};
            });
        } catch (const thrown &) {
        }
        t.write(2, t.read(0));
    });
    IS((c.atomically([&](auto &t) { return t.read_many({0, 1, 2}); }) == std::vector<uint64_t>{5, 0, 5}));
    // an inner transaction is such a part
    try {
        c.atomically([&](auto &t) {
            t.write(0, 7);
            c.atomically([](auto &inner) { inner.write(1, 7); });
            c.atomically([](auto &) { throw thrown{2}; });
        });
        IS(false);
    } catch (const thrown &e) {
        IS(e.number == 2);
    }
    c.atomically([&](auto &t) {
        t.write(0, 8);
        IS(status_of([&] { c.atomically([](auto &inner) { inner.write(1, 9), inner.write(4, 9); }); }) == NEKCHHAUL_ADDRESS);
        c.atomically([](auto &inner) { inner.write(2, 8); });
    });
    IS((c.atomically([&](auto &t) { return t.read_many({0, 1, 2}); }) == std::vector<uint64_t>{8, 0, 8}));
    c.atomically([](auto &t) { t.write(0, 5); });
    IS(c.atomically([&](auto &t) {
        return t.or_else([](nh::attempt &first) -> int { first.write(0, 9); first.retry(); }, [](auto &second) { return static_cast<int>(second.read(0)); });
    }) == 5);
    int runs = 0;
    c.atomically([&](auto &t) {
        if (++runs < 20) t.retry();
    });
    IS(runs == 20);
}

// What was written stands, and the error has the exception in it.
void irrevocable(nh::caller &c)
{
    c.atomically([&](auto &t) {
        t.become_irrevocable();
        IS(t.state().irrevocable == 1);
        c.atomically([](auto &inner) { inner.write(0, 4); });
    });
    IS(status_of([&] { c.atomically([](auto &t) { t.become_irrevocable(); t.read(1000); }); }) == NEKCHHAUL_IRREVOCABLE);
    IS(status_of([&] { c.atomically([](auto &t) { t.become_irrevocable(); t.write(1, 4); t.retry(); }); }) == NEKCHHAUL_IRREVOCABLE);
    try {
        c.atomically([](auto &t) {
            t.become_irrevocable();
            t.nested([](auto &inner) { inner.write(2, 4); throw thrown{5}; });
        });
        IS(false);
    } catch (const nh::error &e) {
        IS(e.status == NEKCHHAUL_IRREVOCABLE);
    }
    IS((c.atomically([&](auto &t) { return t.read_many({0, 1, 2}); }) == std::vector<uint64_t>{4, 4, 4}));
}

// After each run of a body one hook, whatever it came to.
void hooks(nh::caller &c)
{
    int runs = 0, committed = 0, aborted = 0;
    auto with = [&](auto body) {
        c.atomically_with([&](nh::attempt &t) { runs++, body(t); }, [&] { committed++; }, [&] { aborted++; });
    };
    with([](nh::attempt &) {});
    IS(runs == 1 && committed == 1 && aborted == 0);
    with([&](nh::attempt &t) { if (runs < 4) t.retry(); });
    IS(runs == 4 && committed == 2 && aborted == 2);
    IS(status_of([&] { with([](nh::attempt &t) { t.read(1000); }); }) == NEKCHHAUL_ADDRESS && aborted == 3);
    try {
        with([](nh::attempt &) { throw thrown{1}; });
        IS(false);
    } catch (const thrown &) {
    }
    IS(runs == 6 && committed == 2 && aborted == 4);
    IS(status_of([&] { with([](nh::attempt &t) { t.become_irrevocable(); throw thrown{1}; }); }) == NEKCHHAUL_IRREVOCABLE && committed == 3);
    c.atomically([&](auto &) { IS(status_of([&] { with([](nh::attempt &) {}); }) == NEKCHHAUL_IN_ATTEMPT); });
    IS(runs == 7 && committed == 3 && aborted == 4);
}

void others(nh::caller &c, nh::caller &other)
{
    c.learn(other);
    c.learn(c);
    IS(c.state().stand == 0 && c.atomically([](auto &t) { return t.state().stand; }) == 1);
    c.reserve(8, 8);
    IS(status_of([&] { c.reserve(0, 8); }) == NEKCHHAUL_LOGS);
    IS(nekchhaul_begin(other.get()) == NEKCHHAUL_OK);
    IS(status_of([&] { c.install(nh::algorithm::serial, 3); }) == NEKCHHAUL_BUSY);
    IS(c.why().status == NEKCHHAUL_BUSY && c.state().stand == 0);
    IS(status_of([&] { c.take_range(0, 1, 2); }) == NEKCHHAUL_BUSY);
    IS(status_of([&] { c.close(4, 1); }) == NEKCHHAUL_BUSY);
    IS(nekchhaul_commit(other.get()) == NEKCHHAUL_OK);
    c.take_range(0, 2);
    other.atomically([](auto &t) { t.write(2, 1); });
    IS(status_of([&] { c.atomically([](auto &t) { t.write(3, 1), t.write(1, 1); }); }) == NEKCHHAUL_FENCED);
    IS(status_of([&] { (void)c.direct_read(2); }) == NEKCHHAUL_NO_RANGE);
    c.direct_write(1, 11);
    c.return_range();
    try {
        c.atomically([](auto &t) { t.read(4); });
        IS(false);
    } catch (const nh::error &e) {
        IS(e.status == NEKCHHAUL_ADDRESS && std::string(e.what()) == "nekchhaul: ADDRESS");
    }
    nh::caller moved = std::move(c);
    IS(status_of([&] { c.state(); }) == NEKCHHAUL_NO_CALLER);
    auto left = moved.close(4);
    IS(left.at(1) == 11 && left.at(2) == 1);
    for (nh::caller *one : {&moved, &other}) IS(status_of([&] { one->atomically([](auto &t) { t.read(0); }); }) == NEKCHHAUL_FENCED);
}
} // namespace

int main()
{
    for (auto a : {nh::algorithm::orec_lazy, nh::algorithm::orec_eager, nh::algorithm::ring_sw, nh::algorithm::serial}) {
        auto callers = nh::open({4, 16, 16, 16, 16, 0}, a, 2);
        words(callers[0]);
        callers[0].atomically([](auto &t) { for (size_t i = 0; i < 4; i++) t.write(i, 0); });
        by_hand(callers[0], callers[1]);
        marks(callers[0]);
        callers[0].atomically([](auto &t) { t.write(0, 0); });
        nesting(callers[0]);
        irrevocable(callers[0]);
        hooks(callers[0]);
        others(callers[0], callers[1]);
    }
    auto callers = nh::open({4, 16, 16, 16, 16, 0}, nh::algorithm::orec_lazy, 2);
    {
        auto lent = nh::open({4, 16, 16, 16, 16, 0}, nh::algorithm::orec_lazy, 2);
        nh::table table(std::move(lent));
        nh::caller one = table.join(), other = table.join();
        IS(status_of([&] { table.join(); }) == NEKCHHAUL_NONE_FREE);
        one.atomically([](auto &t) { t.write(1, 8); });
        IS(other.peek(1) == 8 && status_of([&] { other.peek(4); }) == NEKCHHAUL_ADDRESS);
        one.take_range(1, 1);
        IS(status_of([&] { other.peek(1); }) == NEKCHHAUL_FENCED && status_of([&] { table.part(one); }) == NEKCHHAUL_HOLDS_RANGE);
        table.part_for_dead(one);
        IS(status_of([&] { table.part(one); }) == NEKCHHAUL_NO_CALLER);
        table.part(other);
    }
    nh::caller(std::move(callers[0])).take_range(0, 1); // which the destructor gives back
    IS(status_of([&] { callers[1].begin().read(0); }) == NEKCHHAUL_OK);
    IS(status_of([] { nh::open({1, 1, 2, 1, 1, 0}, nh::algorithm::serial, 0); }) == NEKCHHAUL_SIZE_CALLERS);
    IS(status_of([] { nh::open({0, 1, 2, 1, 1, 0}, nh::algorithm::serial, 1); }) == NEKCHHAUL_SIZE_WORDS);
    return wrong;
}
