/* What each driver shares: it reads a workload of version 1, runs its transactions with a thread for each caller on the
 * memory that the driver has, and writes the report. Of the operations it knows read, write, add and move; it skips
 * `switch`, which says nothing of another memory, and refuses what else there is. */
#include <inttypes.h>
#include <pthread.h>
#include <stdint.h>
#include <stdio.h>
#include <stdlib.h>
#include <string.h>

enum { MOST_WORDS = 65536, MOST_CALLERS = 32 };

typedef struct {
    char kind; /* the first letter of its name */
    uint32_t a, b;
    uint64_t k;
} operation;

typedef struct {
    unsigned caller, seq;
    size_t first, count; /* of `operations`, and of `replies` */
    uint64_t place;
    int wrote;
} transaction;

static uint64_t words[MOST_WORDS];
static operation *operations;
static uint64_t *replies;
static transaction *transactions;
static size_t operation_count, transaction_count;
static unsigned callers, word_count;

/* The driver's own: runs the script of `t` as one transaction. It sets `place`, `wrote` and a reply for each operation. */
static void run(transaction *t);

/* What one operation does to a memory of which these are the loads and stores. It answers the reply. */
#define DO(op, load, store, wrote)                                                                                     \
    ((op)->kind == 'r'   ? load((op)->a)                                                                               \
     : (op)->kind == 'w' ? (*(wrote) = 1, store((op)->a, (op)->k), (op)->k)                                            \
     : (op)->kind == 'a' ? (*(wrote) = 1, store((op)->a, load((op)->a) + (op)->k), load((op)->a))                      \
     : load((op)->a) < (op)->k                                                                                         \
         ? 0                                                                                                           \
         : (*(wrote) = 1, store((op)->a, load((op)->a) - (op)->k), store((op)->b, load((op)->b) + (op)->k), 1))

static void *grown(void *room, size_t count, size_t size) {
    /* room for a power of two of them */
    if (count & (count - 1)) return room;
    room = realloc(room, (count ? 2 * count : 1) * size);
    if (!room) abort();
    return room;
}

/* A line that says nothing of another memory, or nothing more; else the driver doesn't know it. */
static void skip(const char *line) {
    static const char *const skipped[] = {"stm 1\n", "records ", "ring ", "reads ", "writes ", "clock ", "alg ", "structs off\n", "switch ", "end\n"};
    for (size_t i = 0; i < sizeof skipped / sizeof *skipped; i++)
        if (!strncmp(line, skipped[i], strlen(skipped[i]))) return;
    fprintf(stderr, "this driver takes no line as: %s", line);
    exit(2);
}

static void read_workload(void) {
    char line[256];
    unsigned done[MOST_CALLERS] = {0};
    while (fgets(line, sizeof line, stdin) && strcmp(line, "done\n")) {
        unsigned n;
        operation op = {line[0], 0, 0, 0};
        if (sscanf(line, "words %u", &n) == 1) word_count = n;
        else if (sscanf(line, "callers %u", &n) == 1) callers = n;
        else if (sscanf(line, "tx %u", &n) == 1) {
            transactions = grown(transactions, transaction_count, sizeof *transactions);
            transactions[transaction_count++] = (transaction){n, done[n]++, operation_count, 0, 0, 0};
        } else if (sscanf(line, "read %" SCNu32, &op.a) == 1 || sscanf(line, "write %" SCNu32 " %" SCNu64, &op.a, &op.k) == 2 ||
                   sscanf(line, "add %" SCNu32 " %" SCNu64, &op.a, &op.k) == 2 ||
                   sscanf(line, "move %" SCNu32 " %" SCNu32 " %" SCNu64, &op.a, &op.b, &op.k) == 3) {
            operations = grown(operations, operation_count, sizeof *operations);
            operations[operation_count++] = op;
            transactions[transaction_count - 1].count++;
        } else skip(line);
    }
    replies = calloc(operation_count + 1, sizeof *replies);
}

static void *work(void *caller) {
    for (transaction *t = transactions; t < transactions + transaction_count; t++)
        if (t->caller == (uintptr_t)caller) run(t);
    return NULL;
}

/* By place, W before R, then by caller, then by seq. */
static int in_order(const void *left, const void *right) {
    const transaction *a = left, *b = right;
    if (a->place != b->place) return a->place < b->place ? -1 : 1;
    if (a->wrote != b->wrote) return b->wrote - a->wrote;
    if (a->caller != b->caller) return a->caller < b->caller ? -1 : 1;
    return a->seq < b->seq ? -1 : 1;
}

static void write_report(void) {
    qsort(transactions, transaction_count, sizeof *transactions, in_order);
    puts("report 1");
    for (size_t i = 0; i < transaction_count; i++) {
        transaction *t = &transactions[i];
        printf("%c %" PRIu64 " %u %u :", t->wrote ? 'W' : 'R', t->place, t->caller, t->seq);
        for (size_t j = 0; j < t->count; j++) printf(" %" PRIu64, replies[t->first + j]);
        putchar('\n');
    }
    for (unsigned a = 0; a < word_count; a++)
        if (words[a]) printf("mem %u %" PRIu64 "\n", a, words[a]);
    puts("end");
}

int main(void) {
    pthread_t threads[MOST_CALLERS];
    read_workload();
    for (uintptr_t i = 0; i < callers; i++)
        if (pthread_create(&threads[i], NULL, work, (void *)i)) abort();
    for (unsigned i = 0; i < callers; i++) pthread_join(threads[i], NULL);
    write_report();
    return 0;
}
