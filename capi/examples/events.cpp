// The events of events.c in C++, as lines of capi/events.data.
#include "nekchhaul.hpp"

#include <cstdio>
#include <functional>

namespace nh = nekchhaul;

namespace {
constexpr size_t words = 403;
struct stop {
    int number;
};

struct run {
    nh::caller &mine, &other;
    int between;
    int ends = 0;
    bool half = false;

    void come_between()
    {
        if (between == 0) return;
        between--;
        try {
            nh::begun b = other.begin();
            b.write_many({3, words - 1}, {0, 0});
            b.commit();
        } catch (const nh::error &) {
        }
    }
};

// Parts of bodies.
void put(nh::attempt &t) { t.write(1, 1); }
void put_last(nh::attempt &t) { t.write(2, 1); }
void put_and_stop(nh::attempt &t)
{
    put(t);
    throw stop{7};
}
void put_and_misuse(nh::attempt &t)
{
    put(t);
    t.write(words, 1);
}
void put_and_always_retry(nh::attempt &t)
{
    put(t);
    t.retry();
}
// It is to be retried the first time.
void first_retry(nh::attempt &t, run &r)
{
    if (r.ends++ == 0) t.retry();
}
void put_and_retry(nh::attempt &t, run &r)
{
    put(t);
    first_retry(t, r);
}
void nest_on(nh::attempt &t) { t.nested(nest_on); }

struct event {
    const char *name;
    std::function<void(nh::attempt &, run &)> does;
};

const event events[] = {
    {"done", [](auto &, auto &) {}},
    {"stops", [](auto &t, auto &) { put_and_stop(t); }},
    {"misuses", [](auto &t, auto &) { put_and_misuse(t); }},
    {"retries", put_and_retry},
    {"joins", [](auto &, auto &r) { r.mine.atomically(put); }},
    {"joined_stops", [](auto &, auto &r) { r.mine.atomically(put_and_stop); }},
    {"joined_retries", [](auto &, auto &r) { r.mine.atomically([&](auto &t) { put_and_retry(t, r); }); }},
    {"nests", [](auto &t, auto &) { t.nested(put); }},
    {"nested_stops", [](auto &t, auto &) { t.nested(put_and_stop); }},
    {"nested_misuses", [](auto &t, auto &) { t.nested(put_and_misuse); }},
    {"nested_retries", [](auto &t, auto &r) { t.nested([&](auto &u) { put_and_retry(u, r); }); }},
    {"goes_on_after_stop",
     [](auto &t, auto &) {
         try {
             t.nested(put_and_stop);
         } catch (const stop &) {
             put_last(t);
         }
     }},
    {"either", [](auto &t, auto &) { t.or_else(put_and_always_retry, put_last); }},
    {"either_stops", [](auto &t, auto &) { t.or_else(put_and_always_retry, put_and_stop); }},
    {"neither", [](auto &t, auto &r) { t.or_else(put_and_always_retry, [&](auto &u) { put_last(u), first_retry(u, r); }); }},
    {"nests_deep", [](auto &t, auto &) { nest_on(t); }},
    {"marks_deep", [](auto &t, auto &) { for (;;) t.checkpoint(); }},
};

// What the loop answers.
std::string answer(run &r, const event &e)
{
    try {
        r.mine.atomically([&](nh::attempt &t) {
            for (size_t i = 3; i < words - 1; i++) t.read(i);
            r.come_between();
            t.read(words - 1);
            for (size_t i = 0; i < 3; i++) r.half |= t.read(i) != 0;
            t.write(0, 1);
            e.does(t, r);
        });
        return "OK";
    } catch (const nh::error &error) {
        return nekchhaul_status_name(error.status);
    } catch (const stop &s) {
        return "STOP+" + std::to_string(s.number);
    }
}

void run_all(nh::algorithm algorithm, size_t logs, int between)
{
    for (const event &e : events) {
        auto callers = nh::open({words, 64, 64, logs, logs, 0}, algorithm, 2);
        run r{callers[0], callers[1], between};
        std::string s = answer(r, e);
        nh::begun t = callers[1].begin();
        auto w = t.read_many({0, 1, 2});
        t.commit();
        std::printf("%s %s %u%u%u%s\n", e.name, s.c_str(), unsigned(w[0]), unsigned(w[1]), unsigned(w[2]), r.half ? " and a half was seen" : "");
    }
}
} // namespace

int main()
{
    for (auto a : {nh::algorithm::cgl, nh::algorithm::tml, nh::algorithm::orec_lazy, nh::algorithm::orec_eager, nh::algorithm::ring_sw, nh::algorithm::serial}) {
        for (size_t logs : {4, 64}) {
            for (int between : {0, 20}) run_all(a, logs, between);
        }
    }
    return 0;
}
