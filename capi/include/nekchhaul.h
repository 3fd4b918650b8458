/* Nekchhaul: a word-based software transactional memory, for C and C++.
 *
 * A memory has words of 64 bits, and callers. A caller is a handle, by which one thread at a time runs attempts at
 * transactions: nekchhaul_begin, then nekchhaul_read and nekchhaul_write, then nekchhaul_commit. The whole program of
 * docs/C.md shows how; nekchhaul_atomically, below, runs a transaction until it commits. The library is for processors of
 * x86-64-v2.
 *
 * ANSWERS. Every call returns, whatever was called before, and answers a nekchhaul_status. 0 is done. 1 to 15 say what
 * came in the way of the transaction. 16 and up, but for what loops answer, say that the call didn't fit, or that no memory
 * was opened: then nothing has changed. A value behind a pointer is written only where the answer is 0 (nekchhaul_read_many,
 * nekchhaul_write_many and the loop's calls say more). No call waits, but for those that are C, and nekchhaul_enter in another's
 * turn. nekchhaul_open, nekchhaul_reserve and nekchhaul_enter alone take memory.
 *
 * OWNERSHIP. The two words of a handle are the caller's storage, and the library alone reads and writes them. A handle
 * that is all zero is no caller, and every call on it answers NEKCHHAUL_NO_CALLER, whatever else doesn't fit. A handle is
 * never copied: nekchhaul_move hands it on. The memory is freed with the last of its callers that is released.
 *
 * THREADS. A handle is used by one thread at a time. It may go to another thread after anything that orders the two: a
 * lock, a thread's start or its join. Different handles are used by as many threads at once as there are handles.
 *
 * WHAT IS PROVED, and of what. Each call of crates/nekchhaul_c meets its contract there, which was checked by machine: no
 * order of calls, no address and no number makes one go wrong, and each tells what the library's own calls tell. Tested,
 * and not proved, are what capi/waking.c has around nine of them, which wakes who sleeps and gives turns behind a lock;
 * what this header has in C (nekchhaul_move, the pauses, nekchhaul_atomically, which decides nothing, the table); the
 * wrappers, the C compiler and the linker. What the C side owes, since nothing can check it, is in docs/C.md: the
 * pointers are not null and lead to objects of their own, no copy of a handle is used, no handle is used by two threads
 * at once, and no call is made from a signal handler or in the child of a fork.
 *
 * VERSIONS. This is 2.1. Beyond 2.0 it has nekchhaul_peek; nekchhaul_share, nekchhaul_join, nekchhaul_part,
 * nekchhaul_part_for_dead and NONE_FREE; nekchhaul_wait, nekchhaul_wake and what they are made of: nekchhaul_announce,
 * nekchhaul_ring, nekchhaul_bell and nekchhaul_sleep. In 2.0 nekchhaul_enter, nekchhaul_leave and nekchhaul_pause had a number
 * in place of a nekchhaul_pause_of: who calls them is compiled anew.
 */
#ifndef NEKCHHAUL_H
#define NEKCHHAUL_H

#include <sched.h>
#include <stddef.h>
#include <stdint.h>

#define NEKCHHAUL_VERSION_MAJOR 2
#define NEKCHHAUL_VERSION_MINOR 1

#ifdef __cplusplus
extern "C" {
#endif

/* Of a call whose answer is not to be lost: (void) says that it may be. */
#if defined(__clang__)
#define NEKCHHAUL_CALL __attribute__((nonnull, warn_unused_result))
#elif defined(__GNUC__) && __GNUC__ >= 10 && (!defined(__cplusplus) || __cplusplus >= 201103L)
#define NEKCHHAUL_CALL __extension__ [[nodiscard]] __attribute__((nonnull))
#else
#define NEKCHHAUL_CALL
#endif

/* What a call came to. A number is never given another meaning. */
typedef enum nekchhaul_status {
    NEKCHHAUL_OK = 0,

    /* What came in the way. "Over" says that the attempt has ended without a trace: begin again. */
    NEKCHHAUL_CONFLICT = 1,     /* over: another transaction came in between */
    NEKCHHAUL_GATE_CLOSED = 2,  /* another caller switches, is irrevocable, or takes a range: pause, and ask again */
    NEKCHHAUL_HELD = 3,         /* of begin: another attempt has the lock: pause, and begin again */
    NEKCHHAUL_BUSY = 4,         /* others are in attempts: pause, and ask again. Of switch, fence, give_back and close: the
                                   gate stays closed meanwhile, so that no attempt begins; the same call goes on */
    NEKCHHAUL_AGAIN = 5,        /* of commit: another commit was faster: commit again, or cancel */
    NEKCHHAUL_LOG_FULL = 6,     /* over: a log has its length: reserve, or become irrevocable first */
    NEKCHHAUL_CLOCK_FULL = 7,   /* over: the clock is at 2^62, and nothing more is committed: close this memory, and open
                                   another. Of give_back: the range stays with its caller (docs/C.md: how to get at the words) */
    NEKCHHAUL_IRREVOCABLE = 8,  /* of cancel and roll_to: the attempt can only be committed. Of a loop: the body had made it
                                   irrevocable, and then didn't answer 0; what it wrote stands */
    NEKCHHAUL_DEEP = 9,         /* of checkpoint: 8 marks stand */
    NEKCHHAUL_RANGE_TAKEN = 10, /* of fence and close: a range is out of the transactions already */

    /* What doesn't fit. Nothing has changed. */
    NEKCHHAUL_NO_CALLER = 16,   /* the handle is all zero: never opened, or released */
    NEKCHHAUL_NO_ATTEMPT = 17,
    NEKCHHAUL_IN_ATTEMPT = 18,
    NEKCHHAUL_COMMITTING = 19,  /* after AGAIN only commit and cancel go on */
    NEKCHHAUL_ADDRESS = 20,     /* no such word, or no such range */
    NEKCHHAUL_ALGORITHM = 21,   /* no such algorithm */
    NEKCHHAUL_MEMORY = 23,      /* malloc refused, which is no misuse */
    NEKCHHAUL_HOLDS_CALLER = 24, /* of open: a handle holds a caller still */
    NEKCHHAUL_FENCED = 25,      /* the word was out of the transactions as the attempt began: it goes on without it. A body hands
                                   it on, and is run again until the range is back; a loop answers it where the caller
                                   has a range itself, or all words are out, as after nekchhaul_close */
    NEKCHHAUL_HOLDS_RANGE = 26, /* the caller has a range */
    NEKCHHAUL_NO_RANGES = 27,   /* never: memories opened here take ranges */
    NEKCHHAUL_NO_RANGE = 28,    /* the caller has no range, or the word isn't in it */
    NEKCHHAUL_DEPTH = 30,       /* no such mark stands */
    NEKCHHAUL_LOGS = 31,        /* of reserve: a length isn't 1 to 1,048,576 */
    NEKCHHAUL_ROOM = 32,        /* of close, read_many and write_many: too few places */
    NEKCHHAUL_SIZE_WORDS = 33,  /* of open: this number is out of its range; of words, or they are no whole blocks of 8,192 */
    NEKCHHAUL_SIZE_RECORDS = 34,
    NEKCHHAUL_SIZE_RING = 35,
    NEKCHHAUL_SIZE_CALLERS = 36,
    NEKCHHAUL_SIZE_LOGS = 37,
    NEKCHHAUL_SIZE_CLOCK = 38,
    NEKCHHAUL_STRANGER = 39,    /* of learn: the callers are not of one memory */
    NEKCHHAUL_CLOSING = 40,     /* the caller has closed the gate for a call that answered BUSY: only that call with the same
                                   arguments goes on, or reopen gives it up */
    NEKCHHAUL_NOT_CLOSING = 41, /* of reopen: the caller hasn't closed the gate */

    /* Of loops. */
    NEKCHHAUL_RETRY = 49,       /* of a body: run it again once others have come further */
    NEKCHHAUL_ONE_CALLER = 50,  /* of learn, and a misuse: the two handles are one */
    NEKCHHAUL_RUN = 51,         /* of enter: an attempt is open for the body */
    NEKCHHAUL_PAUSE = 52,       /* of enter and leave: pause, and enter */
    NEKCHHAUL_NONE_FREE = 53,   /* of join: no handle lies in the table */
    NEKCHHAUL_STOP = 256        /* of a body, and more: leave nothing, and answer that */
} nekchhaul_status;

/* The algorithms. docs/ALGORITHMS.md says which to choose. Under all but CGL and TML an attempt can be cancelled until it
 * is made irrevocable. */
typedef enum nekchhaul_algorithm {
    NEKCHHAUL_CGL = 0,        /* one lock; an attempt can never be cancelled */
    NEKCHHAUL_TML = 1,        /* one sequence lock: for many readers; after its first write an attempt can't be cancelled */
    NEKCHHAUL_OREC_LAZY = 2,  /* ownership records, taken at the commit */
    NEKCHHAUL_OREC_EAGER = 3, /* ownership records, taken at the first write */
    NEKCHHAUL_RING_SW = 4,    /* a ring of write filters */
    NEKCHHAUL_SERIAL = 5      /* one lock, with an undo log */
} nekchhaul_algorithm;

/* The sizes of a memory. */
typedef struct nekchhaul_sizes {
    size_t words;    /* 1 to 4,294,967,296; with more than 1,048,576, or more than 62 callers, a multiple of 8,192 */
    size_t records;  /* ownership records, 1 to 16,777,216 */
    size_t ring;     /* ring slots, 2 to 4,096 */
    size_t reads;    /* a read log's length, 1 to 1,048,576 */
    size_t writes;   /* a write log's length, 1 to 1,048,576 */
    uint64_t clock;  /* 0, or the clock of a memory that went before; at most 2^62 */
} nekchhaul_sizes;

/* A caller. Its words belong to the library. */
typedef struct nekchhaul_caller {
    uint64_t tag_;
    void *at_;
} nekchhaul_caller;
#define NEKCHHAUL_NO_CALLER_INIT { 0, NULL }

/* Where a caller stands. */
typedef struct nekchhaul_state_of {
    size_t marks;         /* how many stand */
    uint32_t stand;       /* 0 in no attempt, 1 in one, 2 in the middle of its commit, 3 with the gate closed for a call
                             that answered BUSY */
    uint32_t algorithm;   /* of the attempt; 0 where there is none */
    uint32_t irrevocable; /* 1 where the attempt can only be committed */
    uint32_t range;       /* 1 where it has a range out of the transactions; and 2 more where one was out as its attempt
                             began, of which it can't read or write a word */
} nekchhaul_state_of;

/* What came in the way of a caller last, by its status:
 *   0             nothing yet
 *   CONFLICT      by its kind: 1 the clock was `second` where the attempt had begun at `first`; 2 record `first` was
 *                 `second`, locked by another or newer than the start `third`; 3 record `first` was `second`, and then
 *                 `third`; 4 the ring's entry of time `first` met the read filter in the bits `second`; 5 the ring no
 *                 longer reaches from the clock `second` back to the start `first`
 *   GATE_CLOSED   `first` is the gate's word
 *   HELD          `first` is the lock word, or the odd clock
 *   BUSY          caller `first` was in an attempt: `second` is its status word
 *   AGAIN         the word `first`, 0 the clock and 1 the lock, was `second` and is `third`
 *   LOG_FULL, DEEP    `first` is the limit; of a full log its kind is 1 where that is the read log, 2 where it is one of writes
 *   CLOCK_FULL    `first` is the clock
 *   RANGE_TAKEN   `first` is the gate's word */
typedef struct nekchhaul_cause {
    uint32_t status;
    uint32_t kind;
    uint64_t first, second, third;
} nekchhaul_cause;

/* How often the calls of a caller came to what. A count at 2^64 - 1 goes on at 0. */
typedef struct nekchhaul_counts_of {
    uint64_t begun;     /* attempts that began */
    uint64_t committed; /* attempts that committed what they wrote */
    uint64_t read_only; /* attempts that committed, and wrote nothing */
    uint64_t promoted;  /* answers 0 of become_irrevocable */
    uint64_t full_logs; /* attempts that ended by LOG_FULL */
    uint64_t waits;     /* answers GATE_CLOSED, HELD, BUSY and AGAIN */
    uint64_t clock_conflicts; /* attempts that ended by CONFLICT, of kind 1 of nekchhaul_cause, and so on */
    uint64_t record_conflicts, moved_conflicts, filter_conflicts, overrun_conflicts;
} nekchhaul_counts_of;

/* How long to pause. */
typedef struct nekchhaul_pause_of {
    uint32_t times;     /* so often the processor's short pause */
    uint32_t seen;      /* or, where this isn't 0, a sleep while the low 32 bits of the word at `at` are so */
    const uint64_t *at;
} nekchhaul_pause_of;

/* NEKCHHAUL_VERSION_MAJOR and _MINOR of the archive, as 65,536 * major + minor; and NEKCHHAUL_UNPROVED more where it is one
 * of `capi/build.sh --unproved`, for trying. */
uint32_t nekchhaul_version(void);
#define NEKCHHAUL_UNPROVED 0x80000000u

/* Opens a memory of zeros under an algorithm, and makes `count` callers of it, 1 to 254. Answers ALGORITHM, HOLDS_CALLER,
 * SIZE_WORDS to SIZE_CLOCK or MEMORY, and then no handle has changed; or BUSY where another caller was in the way of the
 * install, which nobody is who hasn't a handle yet: then the memory is open, under CGL, and each handle holds its caller. */
NEKCHHAUL_CALL uint32_t nekchhaul_open(const nekchhaul_sizes *sizes, uint32_t algorithm, nekchhaul_caller *callers, size_t count);

/* Begins an attempt. GATE_CLOSED, HELD, CLOCK_FULL; IN_ATTEMPT, CLOSING. Behind a lock it gets no turn, as nekchhaul_enter does, and
 * asks for the lock in the turns of others. */
NEKCHHAUL_CALL uint32_t nekchhaul_begin(nekchhaul_caller *caller);

/* Begins an attempt, as nekchhaul_begin, and says under which algorithm: `under` is its number, and NEKCHHAUL_BESIDE more where
 * a range was out of the transactions as it began, of which it can't read or write a word. */
NEKCHHAUL_CALL uint32_t nekchhaul_begin_under(nekchhaul_caller *caller, uint32_t *under);
#define NEKCHHAUL_BESIDE 8u

/* Reads a word: the attempt's last write of it, else the memory at its start. CONFLICT, LOG_FULL; NO_ATTEMPT,
 * COMMITTING, ADDRESS, FENCED. */
NEKCHHAUL_CALL uint32_t nekchhaul_read(nekchhaul_caller *caller, size_t address, uint64_t *value);

/* One word outside attempts: what an attempt of this one read finds at its moment, which is none before anything that the
 * caller has seen. CONFLICT, GATE_CLOSED, HELD, CLOCK_FULL; IN_ATTEMPT, ADDRESS, CLOSING; FENCED. nekchhaul_counts counts it as
 * such an attempt. */
NEKCHHAUL_CALL uint32_t nekchhaul_peek(nekchhaul_caller *caller, size_t address, uint64_t *value);

/* Reads the words at `count` addresses, in turn, into the first places of `values`, of which there are `places`: one
 * crossing for many reads. It answers as nekchhaul_read does for the first that is refused, and ROOM where there are fewer
 * places than addresses. The places from there on, and those after the last address, are as they were; after any answer
 * but 0 the values are of no use. A misuse after the first address leaves the words before it read. */
NEKCHHAUL_CALL uint32_t nekchhaul_read_many(nekchhaul_caller *caller, const size_t *addresses, size_t count, uint64_t *values, size_t places);

/* Writes a word, for this attempt until it commits. CONFLICT, LOG_FULL, CLOCK_FULL; NO_ATTEMPT, COMMITTING, ADDRESS,
 * FENCED. */
NEKCHHAUL_CALL uint32_t nekchhaul_write(nekchhaul_caller *caller, size_t address, uint64_t value);

/* Writes the values at `values`, of which there are `places`, to the words at `count` addresses, in turn: one crossing for many
 * writes. It answers as nekchhaul_write does for the first that is refused, after which none is made, and ROOM where there are
 * fewer values than addresses. `taken` is how many were made: `count` with 0, none with ROOM. After a misuse the attempt goes on
 * with them. */
NEKCHHAUL_CALL uint32_t nekchhaul_write_many(nekchhaul_caller *caller, const size_t *addresses, size_t count, const uint64_t *values, size_t places, size_t *taken);

/* Commits the attempt: with 0 it took effect at one moment. CONFLICT, AGAIN, CLOCK_FULL; NO_ATTEMPT. */
NEKCHHAUL_CALL uint32_t nekchhaul_commit(nekchhaul_caller *caller);

/* Ends the attempt without a trace. IRREVOCABLE; NO_ATTEMPT. */
NEKCHHAUL_CALL uint32_t nekchhaul_cancel(nekchhaul_caller *caller);

/* From 0 on the attempt can only be committed, and no call that fits is refused. BUSY and GATE_CLOSED leave it running;
 * with BUSY ask again, with GATE_CLOSED cancel it. CONFLICT, CLOCK_FULL; NO_ATTEMPT, COMMITTING. */
NEKCHHAUL_CALL uint32_t nekchhaul_become_irrevocable(nekchhaul_caller *caller);

/* THE LOOP: nekchhaul_enter, a body of reads and writes, nekchhaul_leave with what the body answered, and again until one of the two
 * says otherwise. All that there is to decide is decided there: nekchhaul_atomically is such a loop, and in another language it is
 * as short. A body may stop, be retried and use marks under each algorithm, since what it writes is kept in a log where the
 * algorithm couldn't take it back. It hands on each answer that ends its attempt, and runs again; nekchhaul_begin,
 * nekchhaul_commit and nekchhaul_cancel answer IN_ATTEMPT in it. */

/* Begins an attempt for a body. RUN: run it, and call nekchhaul_leave. PAUSE: a call was refused, by what nekchhaul_why shows,
 * or a log was made longer; nekchhaul_pause(pause), and enter again. 0: the commit that nekchhaul_leave put off is done. Any
 * other answer ends the loop, with nothing left: CLOCK_FULL; MEMORY where a full log couldn't be made longer; IN_ATTEMPT,
 * CLOSING. Who has waited behind a lock for three milliseconds has its memory's turn, for 50 at most: meanwhile the calls of
 * others that enter sleep. nekchhaul_begin and nekchhaul_peek have no part in that. */
NEKCHHAUL_CALL uint32_t nekchhaul_enter(nekchhaul_caller *caller, nekchhaul_pause_of *pause);

/* Ends that attempt by `how`, what the body answered: 0, the status of a call but RUN, RETRY, or NEKCHHAUL_STOP + n; PAUSE is
 * as AGAIN. 0: it took effect at one moment. PAUSE: the attempt left nothing, or its commit is put off; nekchhaul_pause(pause),
 * and enter again. Any other answer ends the loop, with nothing left: what the body answered where that was STOP + n, a misuse,
 * DEEP or RANGE_TAKEN, and FENCED only where the caller has a range itself or all words are out; LOG_FULL where it writes more
 * words than a log of 1,048,576 items has; CLOCK_FULL. With IRREVOCABLE what it wrote stands: nekchhaul_become_irrevocable had
 * answered 0, and then the body didn't. After PAUSE a `how` other than 0 gives the loop up. NO_ATTEMPT: no attempt of a loop is
 * open. */
NEKCHHAUL_CALL uint32_t nekchhaul_leave(nekchhaul_caller *caller, uint32_t how, nekchhaul_pause_of *pause);

/* THE CALLS THAT MUST BE ALONE: nekchhaul_switch, nekchhaul_fence, nekchhaul_give_back and nekchhaul_close. Each closes the
 * gate, so that no attempt of others begins, and looks once whether those that run have ended. Where one hasn't, the answer
 * is BUSY, and the gate stays closed: the same call with the same arguments looks on from there, and each other caller is
 * seen idle once. So it comes through as soon as the attempts that ran have ended, however many are to begin. Meanwhile the
 * others' begins and such calls answer GATE_CLOSED, and all other calls of this caller, but those that ask it (nekchhaul_state,
 * nekchhaul_why, nekchhaul_counts), answer CLOSING; nekchhaul_reopen gives up. GATE_CLOSED: another caller has the gate; then
 * this one holds nothing. nekchhaul_install and its like, below, call until done. */

/* Installs an algorithm, for attempts that begin from then on. GATE_CLOSED, BUSY; ALGORITHM, IN_ATTEMPT, CLOSING. */
NEKCHHAUL_CALL uint32_t nekchhaul_switch(nekchhaul_caller *caller, uint32_t algorithm);

/* Gives up the call that answered BUSY: the gate is open again. IN_ATTEMPT, NOT_CLOSING. */
NEKCHHAUL_CALL uint32_t nekchhaul_reopen(nekchhaul_caller *caller);

/* Marks what the attempt has written; `depth` counts the marks. DEEP; NO_ATTEMPT, COMMITTING. */
NEKCHHAUL_CALL uint32_t nekchhaul_checkpoint(nekchhaul_caller *caller, size_t *depth);

/* Rolls the attempt back to mark `depth`, which stands: what it wrote since is as if it had not been written.
 * IRREVOCABLE; NO_ATTEMPT, COMMITTING, DEPTH. */
NEKCHHAUL_CALL uint32_t nekchhaul_roll_to(nekchhaul_caller *caller, size_t depth);

/* Drops the marks from `depth` on, and keeps what was written. NO_ATTEMPT, COMMITTING, DEPTH. */
NEKCHHAUL_CALL uint32_t nekchhaul_drop_marks(nekchhaul_caller *caller, size_t depth);

/* Takes `count` words from `from` on out of the transactions: this caller alone reads and writes them until it gives
 * them back. GATE_CLOSED, BUSY, RANGE_TAKEN; IN_ATTEMPT, HOLDS_RANGE, ADDRESS, CLOSING. */
NEKCHHAUL_CALL uint32_t nekchhaul_fence(nekchhaul_caller *caller, size_t from, size_t count);

/* Reads and writes a word of the caller's range, outside attempts. IN_ATTEMPT, NO_RANGE, CLOSING. */
NEKCHHAUL_CALL uint32_t nekchhaul_direct_read(nekchhaul_caller *caller, size_t address, uint64_t *value);
NEKCHHAUL_CALL uint32_t nekchhaul_direct_write(nekchhaul_caller *caller, size_t address, uint64_t value);

/* Gives the range back; what was written there takes effect at one moment. GATE_CLOSED, BUSY, CLOCK_FULL; IN_ATTEMPT,
 * NO_RANGE, CLOSING. */
NEKCHHAUL_CALL uint32_t nekchhaul_give_back(nekchhaul_caller *caller);

/* Ends the memory: takes all its words out of the transactions for good, and writes them to the first places of
 * `words`. They are the memory after one history of all that its callers had committed. From then on every read and
 * write of every caller is FENCED; release the callers. `count` is how many places there are, at least as many as words.
 * GATE_CLOSED, BUSY, RANGE_TAKEN; IN_ATTEMPT, HOLDS_RANGE, ROOM, CLOSING. */
NEKCHHAUL_CALL uint32_t nekchhaul_close(nekchhaul_caller *caller, uint64_t *words, size_t count);

/* Makes the caller's logs longer, each 1 to 1,048,576. One that is as long already stays. MEMORY, and then all is as
 * before; IN_ATTEMPT, LOGS, CLOSING. */
NEKCHHAUL_CALL uint32_t nekchhaul_reserve(nekchhaul_caller *caller, size_t reads, size_t writes);

/* nekchhaul_learn, below, of two handles that are known to be two. */
NEKCHHAUL_CALL uint32_t nekchhaul_learn_of_another(nekchhaul_caller *to, nekchhaul_caller *from);

/* Where the caller stands, and what came in its way last. */
NEKCHHAUL_CALL uint32_t nekchhaul_state(nekchhaul_caller *caller, nekchhaul_state_of *state);
NEKCHHAUL_CALL uint32_t nekchhaul_why(nekchhaul_caller *caller, nekchhaul_cause *cause);

/* What the caller's calls came to since it was opened, counted without an atomic step. */
NEKCHHAUL_CALL uint32_t nekchhaul_counts(nekchhaul_caller *caller, nekchhaul_counts_of *counts);

/* Lets a caller go that is in no attempt; the handle is no caller then. IN_ATTEMPT, HOLDS_RANGE, CLOSING. */
NEKCHHAUL_CALL uint32_t nekchhaul_release(nekchhaul_caller *caller);

/* What nekchhaul_wait and nekchhaul_wake, below, are made of. The first announces that the caller's user will wait, 0, and the next
 * attempt is to look whether it has to; PAUSE where one has that wrote nothing, and began after it was announced:
 * nekchhaul_pause(pause). IN_ATTEMPT, CLOSING. The second wakes all who sleep so, or in a loop. */
NEKCHHAUL_CALL uint32_t nekchhaul_announce(nekchhaul_caller *caller, nekchhaul_pause_of *pause);
NEKCHHAUL_CALL uint32_t nekchhaul_ring(nekchhaul_caller *caller);

/* Where those sleep who were rung for: `at` of `bell` is the bed's word, of bed 0 to 31, and of NEKCHHAUL_RUNG that with a bit for each
 * bed that was rung for and not woken. Nothing else of `bell` is of use. */
NEKCHHAUL_CALL uint32_t nekchhaul_bell(nekchhaul_caller *caller, uint32_t bed, nekchhaul_pause_of *bell);
#define NEKCHHAUL_RUNG 32u

/* ---- From here on it is C, and not proved. ------------------------------------------------------------------------ */

/* The library has those of these functions that are for its users as its own too, for callers that have no C compiler. */
#ifndef NEKCHHAUL_INLINE
#define NEKCHHAUL_INLINE static inline
#endif

/* A body, which answers as nekchhaul_leave says. It may run more than once. */
typedef uint32_t (*nekchhaul_body)(nekchhaul_caller *caller, void *argument);


/* The name of a status without its first word, "CONFLICT" of NEKCHHAUL_CONFLICT; of a number that is no status "STOP" from
 * NEKCHHAUL_STOP on, else "UNKNOWN". */
NEKCHHAUL_INLINE const char *nekchhaul_status_name(uint32_t status)
{
#define NEKCHHAUL_NAME(name) case NEKCHHAUL_##name: return #name;
    switch (status) {
    NEKCHHAUL_NAME(OK)
    NEKCHHAUL_NAME(CONFLICT)
    NEKCHHAUL_NAME(GATE_CLOSED)
    NEKCHHAUL_NAME(HELD)
    NEKCHHAUL_NAME(BUSY)
    NEKCHHAUL_NAME(AGAIN)
    NEKCHHAUL_NAME(LOG_FULL)
    NEKCHHAUL_NAME(CLOCK_FULL)
    NEKCHHAUL_NAME(IRREVOCABLE)
    NEKCHHAUL_NAME(DEEP)
    NEKCHHAUL_NAME(RANGE_TAKEN)
    NEKCHHAUL_NAME(NO_CALLER)
    NEKCHHAUL_NAME(NO_ATTEMPT)
    NEKCHHAUL_NAME(IN_ATTEMPT)
    NEKCHHAUL_NAME(COMMITTING)
    NEKCHHAUL_NAME(ADDRESS)
    NEKCHHAUL_NAME(ALGORITHM)
    NEKCHHAUL_NAME(MEMORY)
    NEKCHHAUL_NAME(HOLDS_CALLER)
    NEKCHHAUL_NAME(FENCED)
    NEKCHHAUL_NAME(HOLDS_RANGE)
    NEKCHHAUL_NAME(NO_RANGES)
    NEKCHHAUL_NAME(NO_RANGE)
    NEKCHHAUL_NAME(DEPTH)
    NEKCHHAUL_NAME(LOGS)
    NEKCHHAUL_NAME(ROOM)
    NEKCHHAUL_NAME(SIZE_WORDS)
    NEKCHHAUL_NAME(SIZE_RECORDS)
    NEKCHHAUL_NAME(SIZE_RING)
    NEKCHHAUL_NAME(SIZE_CALLERS)
    NEKCHHAUL_NAME(SIZE_LOGS)
    NEKCHHAUL_NAME(SIZE_CLOCK)
    NEKCHHAUL_NAME(STRANGER)
    NEKCHHAUL_NAME(CLOSING)
    NEKCHHAUL_NAME(NOT_CLOSING)
    NEKCHHAUL_NAME(RETRY)
    NEKCHHAUL_NAME(ONE_CALLER)
    NEKCHHAUL_NAME(RUN)
    NEKCHHAUL_NAME(PAUSE)
    NEKCHHAUL_NAME(NONE_FREE)
    default: return status >= NEKCHHAUL_STOP ? "STOP" : "UNKNOWN";
    }
#undef NEKCHHAUL_NAME
}

/* Sizes to begin with, for so many words: as many records, 65,536 at most, 64 ring slots, logs of 64 items, which the loops below
 * lengthen. */
NEKCHHAUL_INLINE nekchhaul_sizes nekchhaul_sizes_of(size_t words)
{
    nekchhaul_sizes sizes = { words, words < 65536 ? words : 65536, 64, 64, 64, 0 };
    return sizes;
}

/* Hands a caller on: what stood there is no caller then. */
NEKCHHAUL_INLINE nekchhaul_caller nekchhaul_move(nekchhaul_caller *from)
{
    nekchhaul_caller to = *from;
    from->tag_ = 0;
    from->at_ = NULL;
    return to;
}

/* Has `to` take in what `from` has seen: an attempt of `to` that begins after this starts no earlier than anything that
 * `from` had seen. They are two handles, of callers of one memory, which this thread uses meanwhile; the clock of `to` is
 * read, and nothing else changes. IN_ATTEMPT and CLOSING, of either; STRANGER (docs/C.md says how the two are compared); ONE_CALLER. */
NEKCHHAUL_INLINE uint32_t nekchhaul_learn(nekchhaul_caller *to, nekchhaul_caller *from)
{
    if (to != from) return nekchhaul_learn_of_another(to, from);
    return to->tag_ ? (uint32_t)NEKCHHAUL_ONE_CALLER : (uint32_t)NEKCHHAUL_NO_CALLER;
}

/* A table of handles of one memory, for threads that come and go. Any thread may join at any time, and has then a handle to itself,
 * moved out of the table, until it parts. Its fields are the library's. */
typedef struct nekchhaul_table {
    nekchhaul_caller *callers_; /* the first `free_` of the places hold a caller */
    size_t places_, free_;
    const uint64_t *memory_;
    uint32_t lock_;
} nekchhaul_table;

/* Which memory it is of, where the caller is in no attempt, hasn't closed the gate and has no range. */
static inline uint32_t nekchhaul_memory_of(nekchhaul_caller *caller, const uint64_t **memory)
{
    nekchhaul_state_of state;
    nekchhaul_pause_of bell;
    uint32_t s = nekchhaul_state(caller, &state);
    *memory = NULL;
    if (s == NEKCHHAUL_OK) s = nekchhaul_bell(caller, NEKCHHAUL_RUNG, &bell);
    if (s != NEKCHHAUL_OK) return s;
    *memory = bell.at;
    if (state.stand) return state.stand == 3 ? NEKCHHAUL_CLOSING : NEKCHHAUL_IN_ATTEMPT;
    return state.range & 1 ? (uint32_t)NEKCHHAUL_HOLDS_RANGE : (uint32_t)NEKCHHAUL_OK;
}

/* Makes a table of these handles, which lie in it from then on; once all have parted they are handles again. Answers for the first that
 * doesn't fit: NO_CALLER, IN_ATTEMPT, CLOSING, HOLDS_RANGE; STRANGER where it is of another memory than the first; ROOM where there is
 * none. */
NEKCHHAUL_INLINE uint32_t nekchhaul_share(nekchhaul_table *table, nekchhaul_caller *callers, size_t count)
{
    const uint64_t *first = NULL, *memory;
    for (size_t i = 0; i < count; i++) {
        uint32_t s = nekchhaul_memory_of(&callers[i], &memory);
        if (s != NEKCHHAUL_OK) return s;
        if (i && memory != first) return NEKCHHAUL_STRANGER;
        first = memory;
    }
    if (!count) return NEKCHHAUL_ROOM;
    table->callers_ = callers;
    table->places_ = table->free_ = count;
    table->memory_ = first;
    __atomic_store_n(&table->lock_, 0, __ATOMIC_RELEASE);
    return NEKCHHAUL_OK;
}

/* Takes a handle out of the table into `caller`, which holds none, for this thread. HOLDS_CALLER; NONE_FREE. */
NEKCHHAUL_INLINE uint32_t nekchhaul_join(nekchhaul_table *table, nekchhaul_caller *caller)
{
    uint32_t s = NEKCHHAUL_NONE_FREE;
    if (caller->tag_) return NEKCHHAUL_HOLDS_CALLER;
    while (__atomic_exchange_n(&table->lock_, 1, __ATOMIC_ACQUIRE)) sched_yield();
    if (table->free_) {
        *caller = nekchhaul_move(&table->callers_[--table->free_]);
        s = NEKCHHAUL_OK;
    }
    __atomic_store_n(&table->lock_, 0, __ATOMIC_RELEASE);
    return s;
}

/* Puts it back; `caller` holds none then, so that who parts twice is told NO_CALLER. Else it stays where it is: IN_ATTEMPT, CLOSING,
 * HOLDS_RANGE, STRANGER where the table is of another memory, and ROOM where all its places are full: a handle that never lay there
 * was put into one. */
NEKCHHAUL_INLINE uint32_t nekchhaul_part(nekchhaul_table *table, nekchhaul_caller *caller)
{
    const uint64_t *memory;
    uint32_t s = nekchhaul_memory_of(caller, &memory);
    if (s == NEKCHHAUL_NO_CALLER) return s;
    if (memory != table->memory_) return NEKCHHAUL_STRANGER;
    if (s != NEKCHHAUL_OK) return s;
    while (__atomic_exchange_n(&table->lock_, 1, __ATOMIC_ACQUIRE)) sched_yield();
    if (table->free_ < table->places_) table->callers_[table->free_++] = nekchhaul_move(caller);
    else s = NEKCHHAUL_ROOM;
    __atomic_store_n(&table->lock_, 0, __ATOMIC_RELEASE);
    return s;
}

/* Sleeps while the low 32 bits of the word at `at` are `seen`, by the system's futex, until a commit, a reopened gate or nekchhaul_wake
 * wakes it; for a tenth of a second at most, since a body may look at more than the memory. The library's own function, as what wakes is
 * (capi/waking.c, around the calls above). */
void nekchhaul_sleep(const uint64_t *at, uint32_t seen);

/* Pauses the processor so many times, and from 1,024 on lets another thread run. */
static inline void nekchhaul_spin(uint32_t times)
{
    for (uint32_t i = 0; i < times; i++)
#if defined(__x86_64__)
        __builtin_ia32_pause();
#else
        __asm__ volatile("" ::: "memory");
#endif
    if (times >= 1024) sched_yield();
}

/* The same twice as often each time, up to 1,024; `*times` is 32 at first. */
static inline void nekchhaul_back_off(uint32_t *times)
{
    nekchhaul_spin(*times);
    if (*times < 1024) *times *= 2;
}

/* Pauses as nekchhaul_enter and nekchhaul_leave say. After some runs of a body that answers RETRY it sleeps until another caller has
 * committed a write of a word that they read. */
NEKCHHAUL_INLINE void nekchhaul_pause(const nekchhaul_pause_of *pause)
{
    if (pause->seen) nekchhaul_sleep(pause->at, pause->seen);
    else nekchhaul_spin(pause->times);
}

/* After an attempt of nekchhaul_begin that committed, wrote nothing, and found that its user has to wait: returns soon, or once another
 * caller has committed a write of a word that it read; then look again. So it is called in a loop, and the first call returns at
 * once. IN_ATTEMPT, CLOSING. */
NEKCHHAUL_INLINE uint32_t nekchhaul_wait(nekchhaul_caller *caller)
{
    nekchhaul_pause_of pause;
    uint32_t s = nekchhaul_announce(caller, &pause);
    if (s != NEKCHHAUL_PAUSE) return s;
    nekchhaul_pause(&pause);
    return NEKCHHAUL_OK;
}

/* Wakes all who sleep so or in a loop, in the memory of this caller: their bodies run again, and see what its thread had stored
 * elsewhere before, as a flag by which they are to stop. */
NEKCHHAUL_INLINE uint32_t nekchhaul_wake(nekchhaul_caller *caller)
{
    __atomic_thread_fence(__ATOMIC_SEQ_CST);
    return nekchhaul_ring(caller);
}

/* Ends an attempt of nekchhaul_begin that is to leave no trace. Where it can only be committed (always under CGL, under TML after
 * its first write, and once irrevocable), it is, and the answer is IRREVOCABLE: what it wrote stands. */
NEKCHHAUL_INLINE uint32_t nekchhaul_abandon(nekchhaul_caller *caller)
{
    uint32_t s = nekchhaul_cancel(caller), times = 32;
    if (s == NEKCHHAUL_IRREVOCABLE)
        while (nekchhaul_commit(caller) == NEKCHHAUL_AGAIN) nekchhaul_back_off(&times);
    return s;
}

/* Puts back the handle of a thread that is no more, which nobody may do for one that still runs: ends what it left open. Its range is
 * given back with what was written there, once the others' attempts have ended. An attempt that can only be committed is: with
 * IRREVOCABLE what it wrote stands, and the handle is back, too. NO_CALLER, STRANGER. */
NEKCHHAUL_INLINE uint32_t nekchhaul_part_for_dead(nekchhaul_table *table, nekchhaul_caller *caller)
{
    nekchhaul_pause_of pause;
    uint32_t stood, s, times = 32;
    if (!caller->tag_) return NEKCHHAUL_NO_CALLER;
    stood = nekchhaul_leave(caller, NEKCHHAUL_STOP, &pause);
    if (stood == NEKCHHAUL_NO_ATTEMPT) stood = nekchhaul_abandon(caller);
    (void)nekchhaul_reopen(caller);
    do s = nekchhaul_give_back(caller);
    while (s == NEKCHHAUL_BUSY || s == NEKCHHAUL_GATE_CLOSED ? (nekchhaul_back_off(&times), 1) : 0);
    s = nekchhaul_part(table, caller);
    return s == NEKCHHAUL_OK && stood == NEKCHHAUL_IRREVOCABLE ? stood : s;
}

/* What a body inside a body came to: with 0 its mark is dropped; else all that was written since is rolled back, and the answer is
 * that status, or IRREVOCABLE where it couldn't be. */
static inline uint32_t nekchhaul_unnest(nekchhaul_caller *caller, size_t depth, uint32_t status)
{
    if (status == NEKCHHAUL_OK) return nekchhaul_drop_marks(caller, depth);
    uint32_t s = nekchhaul_roll_to(caller, depth);
    if (s == NEKCHHAUL_OK) (void)nekchhaul_drop_marks(caller, depth);
    return s == NEKCHHAUL_IRREVOCABLE ? s : status;
}

/* Inside a body: runs another, of which nothing is left where it answers anything but 0; the body around hands that on or, where it
 * is RETRY, STOP or a misuse, may go on without it. It takes a mark: DEEP where 8 stand. NO_ATTEMPT. IRREVOCABLE: what it wrote
 * stands, since the attempt was made irrevocable, or is one of nekchhaul_begin that can't be rolled back. */
NEKCHHAUL_INLINE uint32_t nekchhaul_nested(nekchhaul_caller *caller, nekchhaul_body body, void *argument)
{
    size_t depth = 0;
    uint32_t s = nekchhaul_checkpoint(caller, &depth);
    return s == NEKCHHAUL_OK ? nekchhaul_unnest(caller, depth, body(caller, argument)) : s;
}

/* Inside a body: runs `first`, and where it answers RETRY `second` in its place. */
NEKCHHAUL_INLINE uint32_t nekchhaul_or_else(nekchhaul_caller *caller, nekchhaul_body first, nekchhaul_body second, void *argument)
{
    uint32_t s = nekchhaul_nested(caller, first, argument);
    return s == NEKCHHAUL_RETRY ? nekchhaul_nested(caller, second, argument) : s;
}

/* The loop: runs `body` until an attempt took effect, 0, or nothing is left of it, as nekchhaul_enter and nekchhaul_leave answer; it
 * waits by pauses and sleeps. A body is left by its return alone, never by longjmp, and uses no other caller of the same memory: it would wait
 * for itself. Inside a body of the same caller it is nekchhaul_nested. */
NEKCHHAUL_INLINE uint32_t nekchhaul_atomically(nekchhaul_caller *caller, nekchhaul_body body, void *argument)
{
    nekchhaul_pause_of pause;
    uint32_t s;
    for (;;) {
        s = nekchhaul_enter(caller, &pause);
        if (s == NEKCHHAUL_IN_ATTEMPT) return nekchhaul_nested(caller, body, argument);
        if (s == NEKCHHAUL_RUN) s = nekchhaul_leave(caller, body(caller, argument), &pause);
        if (s != NEKCHHAUL_PAUSE) return s;
        nekchhaul_pause(&pause);
    }
}
/* What is to be done outside of the memory, as by an allocator, for each run of a body once: one of the two, with the body's argument.
 * A hook makes no call of the memory. */
typedef struct nekchhaul_hooks {
    void (*committed)(void *argument); /* what the run wrote stands */
    void (*aborted)(void *argument);   /* nothing of it is left; before the next run */
} nekchhaul_hooks;

/* The same loop with hooks. Inside a body of the same caller, which may still fail, it isn't run: IN_ATTEMPT. */
NEKCHHAUL_INLINE uint32_t nekchhaul_atomically_with(nekchhaul_caller *caller, nekchhaul_body body, const nekchhaul_hooks *hooks, void *argument)
{
    nekchhaul_pause_of pause;
    uint32_t s;
    int ran = 0;
    for (;;) {
        s = nekchhaul_enter(caller, &pause);
        if (s == NEKCHHAUL_RUN) {
            if (ran) hooks->aborted(argument);
            ran = 1;
            s = nekchhaul_leave(caller, body(caller, argument), &pause);
        }
        if (s != NEKCHHAUL_PAUSE) break;
        nekchhaul_pause(&pause);
    }
    if (ran) (s == NEKCHHAUL_OK || s == NEKCHHAUL_IRREVOCABLE ? hooks->committed : hooks->aborted)(argument);
    return s;
}

/* Whether a call that must be alone is to be made again after it answered so: others are in the way, and of `tries` (0: no
 * end of them) one is left. After the last the gate is open again. */
static inline int nekchhaul_is_to_go_on(nekchhaul_caller *caller, uint32_t status, unsigned long *tries, uint32_t *times)
{
    if (status != NEKCHHAUL_BUSY && status != NEKCHHAUL_GATE_CLOSED) return 0;
    if (*tries == 1) {
        if (status == NEKCHHAUL_BUSY) (void)nekchhaul_reopen(caller);
        return 0;
    }
    if (*tries) --*tries;
    nekchhaul_back_off(times);
    return 1;
}

/* The calls that must be alone, made until others are out of the way, or this often: 0 for as often as need be. After the
 * last of so many the answer is BUSY or GATE_CLOSED, and the gate is open again. */
NEKCHHAUL_INLINE uint32_t nekchhaul_install_within(nekchhaul_caller *caller, uint32_t algorithm, unsigned long tries)
{
    uint32_t s, times = 32;
    do s = nekchhaul_switch(caller, algorithm);
    while (nekchhaul_is_to_go_on(caller, s, &tries, &times));
    return s;
}

NEKCHHAUL_INLINE uint32_t nekchhaul_take_range_within(nekchhaul_caller *caller, size_t from, size_t count, unsigned long tries)
{
    uint32_t s, times = 32;
    do s = nekchhaul_fence(caller, from, count);
    while (nekchhaul_is_to_go_on(caller, s, &tries, &times));
    return s;
}

NEKCHHAUL_INLINE uint32_t nekchhaul_return_range_within(nekchhaul_caller *caller, unsigned long tries)
{
    uint32_t s, times = 32;
    do s = nekchhaul_give_back(caller);
    while (nekchhaul_is_to_go_on(caller, s, &tries, &times));
    return s;
}

NEKCHHAUL_INLINE uint32_t nekchhaul_end_within(nekchhaul_caller *caller, uint64_t *words, size_t count, unsigned long tries)
{
    uint32_t s, times = 32;
    do s = nekchhaul_close(caller, words, count);
    while (nekchhaul_is_to_go_on(caller, s, &tries, &times));
    return s;
}

NEKCHHAUL_INLINE uint32_t nekchhaul_install(nekchhaul_caller *caller, uint32_t algorithm)
{
    return nekchhaul_install_within(caller, algorithm, 0);
}

NEKCHHAUL_INLINE uint32_t nekchhaul_take_range(nekchhaul_caller *caller, size_t from, size_t count)
{
    return nekchhaul_take_range_within(caller, from, count, 0);
}

NEKCHHAUL_INLINE uint32_t nekchhaul_return_range(nekchhaul_caller *caller)
{
    return nekchhaul_return_range_within(caller, 0);
}

NEKCHHAUL_INLINE uint32_t nekchhaul_end(nekchhaul_caller *caller, uint64_t *words, size_t count)
{
    return nekchhaul_end_within(caller, words, count, 0);
}

#ifdef __cplusplus
}
#endif
#endif
