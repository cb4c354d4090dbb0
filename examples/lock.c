/* A lock in shared memory that outlives its owner, round the library's calls.
 *
 * The mutex is robust: if its owner dies, the next to take it is told (EOWNERDEAD). Whether the tables are then whole
 * depends on where the owner died, which `in_call` says: outside a call they are, inside one a store may be missing.
 * The program lets one process die in each way, and sees that the job is kept, and that the graph is laid out anew. */
#define _GNU_SOURCE
#include "taskgraph.h"

#include <errno.h>
#include <pthread.h>
#include <stdatomic.h>
#include <stdio.h>
#include <stdlib.h>
#include <sys/mman.h>
#include <sys/wait.h>
#include <unistd.h>

enum { JOBS = 16, ARCS = 16, BITS = 2, WORKERS = 2 };
static const tg_sizes sizes = {JOBS, ARCS, BITS, WORKERS};

/* What all processes map. */
struct shared {
    pthread_mutex_t lock;
    atomic_uint in_call;
    uint32_t jobs[5 + TG_CLASSES + 10 * JOBS], arcs[1 + 2 * ARCS], buckets[1 << BITS], queue[2 + 3 * JOBS];
    uint32_t workers[43 * WORKERS];
};
#define LENT(table) (table), sizeof(table) / sizeof *(table)
#define TABLES(s) LENT((s)->jobs), LENT((s)->arcs), LENT((s)->buckets), LENT((s)->queue), LENT((s)->workers)

static void expect(int holds, const char *what)
{
    if (!holds) {
        fprintf(stderr, "lock: %s\n", what);
        exit(1);
    }
}

static void make_lock(struct shared *s)
{
    pthread_mutexattr_t robust;
    expect(!pthread_mutexattr_init(&robust), "no mutex attributes");
    expect(!pthread_mutexattr_setpshared(&robust, PTHREAD_PROCESS_SHARED), "the mutex cannot be shared");
    expect(!pthread_mutexattr_setrobust(&robust, PTHREAD_MUTEX_ROBUST), "the mutex cannot be robust");
    expect(!pthread_mutex_init(&s->lock, &robust), "no mutex");
    pthread_mutexattr_destroy(&robust);
}

/* Takes the lock. 1: the tables are whole. 0: they were laid out anew, and the day's jobs must be added again. */
static int take(struct shared *s)
{
    int error = pthread_mutex_lock(&s->lock);
    if (error == 0) return 1;
    expect(error == EOWNERDEAD, "the lock cannot be taken");
    int whole = !atomic_load(&s->in_call);
    if (!whole) {
        tg_lay_out(sizes, TABLES(s));
        atomic_store(&s->in_call, 0);
    }
    pthread_mutex_consistent(&s->lock);
    return whole;
}

/* Each call of the library stands between these two, under the lock. The fences keep its stores between the marks. */
static void begin_call(struct shared *s)
{
    atomic_store(&s->in_call, 1);
    atomic_thread_fence(memory_order_seq_cst);
}

static tg_answer end_call(struct shared *s, tg_answer answer)
{
    atomic_thread_fence(memory_order_seq_cst);
    atomic_store(&s->in_call, 0);
    return answer;
}
#define CALL(s, function, ...) (begin_call(s), end_call(s, function(sizes, TABLES(s), __VA_ARGS__)))

static void add(struct shared *s, uint32_t name)
{
    tg_answer answer = CALL(s, tg_post_add, 0, (tg_entry){.name = name});
    while (answer.kind == TG_POSTED || answer.kind == TG_GOING_ON)
        answer = CALL(s, tg_step, 0);
    expect(answer.kind == TG_ENDED, tg_message(answer.number));
}

/* A process that takes the lock and dies with it, inside a call or outside. */
static void die_with_lock(struct shared *s, int inside)
{
    pid_t child = fork();
    expect(child >= 0, "no process");
    if (child == 0) {
        take(s);
        if (inside) begin_call(s);
        _exit(0);
    }
    waitpid(child, NULL, 0);
}

int main(void)
{
    struct shared *s = mmap(NULL, sizeof *s, PROT_READ | PROT_WRITE, MAP_SHARED | MAP_ANONYMOUS, -1, 0);
    expect(s != MAP_FAILED, "no shared memory");
    make_lock(s);
    expect(tg_lay_out(sizes, TABLES(s)).kind == TG_LAID_OUT, "the tables are too short");
    expect(take(s), "a new lock");
    add(s, 7);
    pthread_mutex_unlock(&s->lock);

    die_with_lock(s, 0);
    expect(take(s), "an owner that died outside a call leaves whole tables");
    tg_answer answer = CALL(s, tg_get, 1);
    expect(answer.kind == TG_HANDED_OUT && answer.name == 7, "the job is still there");
    pthread_mutex_unlock(&s->lock);

    die_with_lock(s, 1);
    expect(!take(s), "an owner that died inside a call leaves tables that are laid out anew");
    expect(CALL(s, tg_get, 1).kind == TG_NONE_READY, "a fresh graph has no job");
    pthread_mutex_unlock(&s->lock);
    puts("the lock outlived its owners");
    return 0;
}
