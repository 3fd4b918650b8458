// Nekchhaul for C++17: callers that can't be copied, transactions as lambdas, typed words. Not proved; the calls below it are.
#ifndef NEKCHHAUL_HPP
#define NEKCHHAUL_HPP

#include "nekchhaul.h"

#include <cstring>
#include <exception>
#include <optional>
#include <stdexcept>
#include <string>
#include <type_traits>
#include <utility>
#include <vector>

namespace nekchhaul {

enum class algorithm : uint32_t { cgl, tml, orec_lazy, orec_eager, ring_sw, serial };

// A status that ends a loop, or refuses another call: nekchhaul.h says of each call which.
struct error : std::runtime_error {
    uint32_t status;
    explicit error(uint32_t s) : std::runtime_error(std::string("nekchhaul: ") + nekchhaul_status_name(s)), status(s) {}
};

// The address of a word that has a T, of at most 8 bytes.
template <class T> struct word {
    static_assert(std::is_trivially_copyable_v<T> && sizeof(T) <= sizeof(uint64_t), "a word has 8 bytes, which are copied");
    size_t address = 0;

    static uint64_t bits_of(const T &value)
    {
        uint64_t bits = 0;
        std::memcpy(&bits, &value, sizeof value);
        return bits;
    }
    static T value_of(uint64_t bits)
    {
        T value;
        std::memcpy(&value, &bits, sizeof value);
        return value;
    }
};

// As many words of one type, one after the other.
template <class T> struct words {
    size_t first = 0, count = 0;
    size_t size() const { return count; }
    word<T> operator[](size_t i) const
    {
        if (i >= count) throw error(NEKCHHAUL_ADDRESS);
        return {first + i};
    }
};

// Gives each of a memory's words its place, from 0 on; size() is how many words the memory has to have. A T whose bits are 0 is
// what a place has at first.
class layout {
    size_t next_ = 0;

public:
    template <class T> word<T> place() { return {next_++}; }
    template <class T> words<T> array(size_t count) { return {std::exchange(next_, next_ + count), count}; }
    size_t size() const { return next_; }
};

// A running attempt. A call that is refused leaves the body by an exception: by an error where it doesn't fit, else by one
// that the loop alone catches. A body lets everything pass that it doesn't know.
class attempt {
    struct over {
        uint32_t status;
    };
    template <class F> using answer = std::decay_t<std::invoke_result_t<F &, attempt &>>;
    template <class R> using kept = std::optional<std::conditional_t<std::is_void_v<R>, char, R>>;
    nekchhaul_caller *caller_;
    bool by_hand_; // it is one of caller::begin: each refusal is an error
    friend class caller;
    friend class begun;

    attempt(nekchhaul_caller *c, bool by_hand) : caller_(c), by_hand_(by_hand) {}
    void ask(uint32_t s)
    {
        if (s == NEKCHHAUL_OK) return;
        const bool is_the_loops = s < NEKCHHAUL_IRREVOCABLE || s == NEKCHHAUL_FENCED;
        if (is_the_loops && !by_hand_) throw over{s};
        throw error(s);
    }
    template <class F> void run(F &body, kept<answer<F>> &came)
    {
        if constexpr (std::is_void_v<answer<F>>) body(*this);
        else came.emplace(body(*this));
    }
    template <class R> static R given(kept<R> &&came)
    {
        if constexpr (!std::is_void_v<R>) return std::move(*came);
    }

public:
    attempt(const attempt &) = delete;
    attempt &operator=(const attempt &) = delete;

    uint64_t read(size_t address)
    {
        uint64_t value = 0;
        ask(nekchhaul_read(caller_, address, &value));
        return value;
    }
    template <class T> T read(word<T> at) { return word<T>::value_of(read(at.address)); }
    void write(size_t address, uint64_t value) { ask(nekchhaul_write(caller_, address, value)); }
    template <class T> void write(word<T> at, const std::common_type_t<T> &value) { write(at.address, word<T>::bits_of(value)); }
    std::vector<uint64_t> read_many(const std::vector<size_t> &addresses)
    {
        std::vector<uint64_t> values(addresses.size());
        if (addresses.empty()) return values; // whose data may be null
        ask(nekchhaul_read_many(caller_, addresses.data(), addresses.size(), values.data(), values.size()));
        return values;
    }

    // Writes the values to these addresses, in turn.
    void write_many(const std::vector<size_t> &addresses, const std::vector<uint64_t> &values)
    {
        size_t taken = 0;
        if (addresses.empty()) return; // whose data may be null
        ask(values.empty() ? uint32_t{NEKCHHAUL_ROOM} : nekchhaul_write_many(caller_, addresses.data(), addresses.size(), values.data(), values.size(), &taken));
    }

    size_t checkpoint()
    {
        size_t depth = 0;
        ask(nekchhaul_checkpoint(caller_, &depth));
        return depth;
    }
    void roll_to(size_t depth) { ask(nekchhaul_roll_to(caller_, depth)); }
    void drop_marks(size_t depth) { ask(nekchhaul_drop_marks(caller_, depth)); }

    // Waits for the attempts of others; from then on this one can only be committed.
    void become_irrevocable()
    {
        uint32_t s, times = 32;
        while ((s = nekchhaul_become_irrevocable(caller_)) == NEKCHHAUL_BUSY) nekchhaul_back_off(&times);
        ask(s);
    }
    nekchhaul_state_of state()
    {
        nekchhaul_state_of at;
        ask(nekchhaul_state(caller_, &at));
        return at;
    }

    // Runs the body's part again once others have come further. Of a begun, which has no body: the error RETRY.
    [[noreturn]] void retry()
    {
        if (by_hand_) throw error(NEKCHHAUL_RETRY);
        throw over{NEKCHHAUL_RETRY};
    }

    // Runs another body, of which nothing is left where it throws; the exception goes on, and may be caught. The error is
    // DEEP where 8 marks stand, and IRREVOCABLE where it couldn't be rolled back.
    template <class F> answer<F> nested(F &&body)
    {
        size_t depth = 0;
        ask(nekchhaul_checkpoint(caller_, &depth));
        kept<answer<F>> came;
        try {
            run(body, came);
        } catch (...) {
            if (nekchhaul_unnest(caller_, depth, NEKCHHAUL_STOP) == NEKCHHAUL_IRREVOCABLE) std::throw_with_nested(error(NEKCHHAUL_IRREVOCABLE));
            throw;
        }
        ask(nekchhaul_unnest(caller_, depth, NEKCHHAUL_OK));
        return given<answer<F>>(std::move(came));
    }

    // Runs the first body, and where that is to be retried the second in its place.
    template <class F, class G> answer<F> or_else(F &&first, G &&second)
    {
        try {
            return nested(first);
        } catch (const over &o) {
            if (o.status != NEKCHHAUL_RETRY) throw;
        } catch (const error &e) {
            if (e.status != NEKCHHAUL_RETRY) throw;
        }
        return nested(second);
    }
};

// An attempt that caller::begin began: its calls throw an error. One that isn't committed leaves no trace where it goes, unless it can
// only be committed; then it is.
class begun : public attempt {
    friend class caller;
    explicit begun(nekchhaul_caller *c) : attempt(c, true) {}

public:
    ~begun() { (void)nekchhaul_abandon(caller_); }
    void commit()
    {
        uint32_t s, times = 32;
        while ((s = nekchhaul_commit(caller_)) == NEKCHHAUL_AGAIN) nekchhaul_back_off(&times);
        ask(s);
    }
    // IRREVOCABLE where it could only be committed: what it wrote stands.
    void cancel() { ask(nekchhaul_abandon(caller_)); }
};

// A caller that owns its handle. It is moved and never copied, and used by one thread at a time.
class caller {
    nekchhaul_caller handle_ = NEKCHHAUL_NO_CALLER_INIT;
    bool in_body_ = false;

    static void ask(uint32_t s)
    {
        if (s != NEKCHHAUL_OK) throw error(s);
    }

    // Runs the body in the attempt that is open, and leaves it; keeps what it throws.
    template <class F> uint32_t run_once(F &body, attempt::kept<attempt::answer<F>> &answer, std::exception_ptr &thrown, nekchhaul_pause_of *pause)
    {
        uint32_t how = NEKCHHAUL_OK;
        in_body_ = true;
        try {
            attempt(&handle_, false).run(body, answer);
        } catch (const attempt::over &o) {
            how = o.status;
        } catch (...) {
            thrown = std::current_exception();
            how = NEKCHHAUL_STOP;
        }
        in_body_ = false;
        return nekchhaul_leave(&handle_, how, pause);
    }

    // What the body threw goes on where nothing is left of it.
    [[noreturn]] static void refuse(uint32_t s, const std::exception_ptr &thrown)
    {
        if (!thrown) throw error(s);
        try {
            std::rethrow_exception(thrown);
        } catch (...) {
            if (s == NEKCHHAUL_IRREVOCABLE) std::throw_with_nested(error(s));
            throw;
        }
    }

    // The loop of nekchhaul_atomically_with; one that `nests`, as nekchhaul_atomically's, may stand inside a body.
    template <bool nests, class F, class C, class A> attempt::answer<F> loop(F &body, C &&committed, A &&aborted)
    {
        attempt::kept<attempt::answer<F>> answer;
        std::exception_ptr thrown;
        bool ran = false;
        nekchhaul_pause_of pause;
        uint32_t s;
        for (;;) {
            s = nekchhaul_enter(&handle_, &pause);
            if (nests && s == NEKCHHAUL_IN_ATTEMPT) return attempt(&handle_, !in_body_).nested(body);
            if (s == NEKCHHAUL_RUN) {
                if (std::exchange(ran, true)) aborted();
                s = run_once(body, answer, thrown, &pause);
            }
            if (s != NEKCHHAUL_PAUSE) break;
            nekchhaul_pause(&pause);
        }
        if (ran && (s == NEKCHHAUL_OK || s == NEKCHHAUL_IRREVOCABLE)) committed();
        else if (ran) aborted();
        if (s != NEKCHHAUL_OK) refuse(s, thrown);
        return attempt::given<attempt::answer<F>>(std::move(answer));
    }

public:
    caller() = default;
    explicit caller(nekchhaul_caller &&handle) noexcept : handle_(nekchhaul_move(&handle)) {}
    caller(caller &&other) noexcept : handle_(nekchhaul_move(&other.handle_)) {}
    caller &operator=(caller &&other) noexcept
    {
        std::swap(handle_, other.handle_);
        return *this;
    }
    ~caller()
    {
        (void)nekchhaul_abandon(&handle_);
        (void)nekchhaul_reopen(&handle_); // which has answered BUSY, and was given up
        (void)nekchhaul_return_range_within(&handle_, 1000);
        (void)nekchhaul_release(&handle_);
    }

    // The handle, for the calls of nekchhaul.h.
    nekchhaul_caller *get() { return &handle_; }

    // Begins an attempt by hand, if it can be begun at once.
    begun begin()
    {
        ask(nekchhaul_begin(&handle_));
        return begun(&handle_);
    }

    // What the body answers in the attempt that committed, as nekchhaul_atomically does: it may stop, by an exception of its
    // own, which goes on, and the attempt has left nothing. The error is IRREVOCABLE, around that exception, where the body had
    // made the attempt so. Inside a body of the same caller it is attempt::nested.
    template <class F> attempt::answer<F> atomically(F &&body)
    {
        return loop<true>(body, [] {}, [] {});
    }

    // The same with hooks, as nekchhaul_atomically_with: after each run of the body one of the two, which throws nothing.
    template <class F, class C, class A> attempt::answer<F> atomically_with(F &&body, C &&committed, A &&aborted)
    {
        return loop<false>(body, committed, aborted);
    }

    // One word outside attempts, as nekchhaul_peek has it; it waits where another is in the way.
    uint64_t peek(size_t address)
    {
        uint64_t value = 0;
        uint32_t s, times = 32;
        while ((s = nekchhaul_peek(&handle_, address, &value)) == NEKCHHAUL_CONFLICT || s == NEKCHHAUL_GATE_CLOSED || s == NEKCHHAUL_HELD) nekchhaul_back_off(&times);
        ask(s);
        return value;
    }
    template <class T> T peek(word<T> at) { return word<T>::value_of(peek(at.address)); }

    // After an attempt of begin that committed, wrote nothing, and found that it has to wait: returns once it may be worth another.
    void wait() { ask(nekchhaul_wait(&handle_)); }
    // Wakes all who sleep by that or in a loop.
    void wake() { ask(nekchhaul_wake(&handle_)); }

    // The calls that must be alone wait for the attempts of others, or are made so many `tries`; after the last of these the
    // error is BUSY or GATE_CLOSED.
    void install(algorithm a, unsigned long tries = 0) { ask(nekchhaul_install_within(&handle_, static_cast<uint32_t>(a), tries)); }
    void take_range(size_t from, size_t count, unsigned long tries = 0) { ask(nekchhaul_take_range_within(&handle_, from, count, tries)); }
    void return_range(unsigned long tries = 0) { ask(nekchhaul_return_range_within(&handle_, tries)); }
    // The memory after all that was committed; every read and write is refused from then on.
    std::vector<uint64_t> close(size_t words, unsigned long tries = 0)
    {
        std::vector<uint64_t> out(words);
        if (out.empty()) throw error(NEKCHHAUL_ROOM);
        ask(nekchhaul_end_within(&handle_, out.data(), out.size(), tries));
        return out;
    }

    // Reads and writes a word of the caller's range.
    uint64_t direct_read(size_t address)
    {
        uint64_t value = 0;
        ask(nekchhaul_direct_read(&handle_, address, &value));
        return value;
    }
    template <class T> T direct_read(word<T> at) { return word<T>::value_of(direct_read(at.address)); }
    void direct_write(size_t address, uint64_t value) { ask(nekchhaul_direct_write(&handle_, address, value)); }
    template <class T> void direct_write(word<T> at, const std::common_type_t<T> &value) { direct_write(at.address, word<T>::bits_of(value)); }

    void reserve(size_t reads, size_t writes) { ask(nekchhaul_reserve(&handle_, reads, writes)); }
    // Takes in what another caller of the same memory has seen.
    void learn(caller &from)
    {
        if (&from != this) ask(nekchhaul_learn(&handle_, &from.handle_));
    }
    nekchhaul_state_of state()
    {
        nekchhaul_state_of at;
        ask(nekchhaul_state(&handle_, &at));
        return at;
    }
    nekchhaul_cause why()
    {
        nekchhaul_cause cause;
        ask(nekchhaul_why(&handle_, &cause));
        return cause;
    }
    nekchhaul_counts_of counts()
    {
        nekchhaul_counts_of counts;
        ask(nekchhaul_counts(&handle_, &counts));
        return counts;
    }
};

// Callers of one memory for threads that come and go: any thread joins at any time, and has a caller to itself until it parts.
class table {
    std::vector<nekchhaul_caller> places_;
    nekchhaul_table table_;

public:
    explicit table(std::vector<caller> &&callers)
    {
        if (callers.empty()) throw error(NEKCHHAUL_ROOM);
        for (caller &c : callers) places_.push_back(nekchhaul_move(c.get()));
        uint32_t s = nekchhaul_share(&table_, places_.data(), places_.size());
        if (s == NEKCHHAUL_OK) return;
        for (size_t i = 0; i < places_.size(); i++) *callers[i].get() = nekchhaul_move(&places_[i]);
        throw error(s);
    }
    table(const table &) = delete;
    table &operator=(const table &) = delete;
    ~table() // no caller is used that has not parted
    {
        for (nekchhaul_caller &c : places_) caller(std::move(c));
    }

    // The error is NONE_FREE where each is with a thread.
    caller join()
    {
        nekchhaul_caller mine = NEKCHHAUL_NO_CALLER_INIT;
        uint32_t s = nekchhaul_join(&table_, &mine);
        if (s) throw error(s);
        return caller(std::move(mine));
    }
    // Where it is refused the caller stays with its thread.
    void part(caller &c)
    {
        uint32_t s = nekchhaul_part(&table_, c.get());
        if (s) throw error(s);
    }
    // For a thread that is no more.
    void part_for_dead(caller &c)
    {
        uint32_t s = nekchhaul_part_for_dead(&table_, c.get());
        if (s) throw error(s);
    }
};

// 65,536 * major + minor, and NEKCHHAUL_UNPROVED more where the library isn't proved.
inline uint32_t version() { return nekchhaul_version(); }

// Sizes to begin with, for so many words.
inline nekchhaul_sizes sizes_of(size_t words) { return nekchhaul_sizes_of(words); }

inline std::vector<caller> open(const nekchhaul_sizes &sizes, algorithm a, size_t count)
{
    if (count == 0) throw error(NEKCHHAUL_SIZE_CALLERS);
    std::vector<nekchhaul_caller> raw(count, nekchhaul_caller NEKCHHAUL_NO_CALLER_INIT);
    std::vector<caller> out;
    out.reserve(count);
    uint32_t s = nekchhaul_open(&sizes, static_cast<uint32_t>(a), raw.data(), count);
    // taken first, so that what a BUSY has opened goes with them
    for (nekchhaul_caller &c : raw) out.emplace_back(std::move(c));
    if (s) throw error(s);
    return out;
}

// The word of a closed memory, as it is typed.
template <class T> T value_in(const std::vector<uint64_t> &memory, word<T> at)
{
    return word<T>::value_of(memory.at(at.address));
}

} // namespace nekchhaul
#endif
