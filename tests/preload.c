/* Stands before a program by LD_PRELOAD. It counts requests of its process, refuses some, cuts reads and writes short and holds
   threads, as the environment says:
     REFUSE_MEMORY=N   refuses the Nth request for memory, REFUSE_MEMORY=N+ the Nth and all after it;
     REFUSE_THREAD=N   the Nth start of a thread, or N+ as above;
     REFUSE_READ=N     the Nth read, and REFUSE_WRITE=N the Nth write to standard output: it fails;
     TAKE_NONE=N       the Nth write to standard output takes no byte;
     MOST_BYTES=N      a read, or a write to standard output, moves at most N bytes;
     HOLD_THREADS=1    a thread that is started waits until it is joined, so threads run one after the other;
     WRITE_COUNTS=F    at the end a line for each count goes to the file F, with its name, and one for each start of a thread.
   Requests count from the time on at which this library stands, so the loader's own are not among them. It is for the C
   library of GNU, to which it hands them on under the names with __libc. */
#define _GNU_SOURCE
#include <dlfcn.h>
#include <errno.h>
#include <fcntl.h>
#include <linux/futex.h>
#include <pthread.h>
#include <semaphore.h>
#include <stdarg.h>
#include <stdatomic.h>
#include <stdio.h>
#include <stdlib.h>
#include <sys/syscall.h>
#include <time.h>
#include <unistd.h>

/* No run starts more threads. */
#define MOST_STARTS 64
/* A wait with a longer limit has none, in seconds. */
#define NO_LIMIT 1000000

extern void *__libc_malloc(size_t), *__libc_calloc(size_t, size_t), *__libc_realloc(void *, size_t);
extern void *__libc_memalign(size_t, size_t);
extern void __libc_free(void *);

struct rule {
    long first; /* 0 where nothing is refused */
    int onward;
    atomic_long asked, refused;
};

/* The start of a thread: the requests for memory before it, and those up to its end. */
struct start {
    long before, after;
    void *(*body)(void *);
    void *argument;
    pthread_t id;
    sem_t joined;
};

static struct rule memory, thread, reading, writing, taking;
static size_t most_bytes;
/* Those of the program itself, without what the C library takes for the start of a thread. */
static atomic_long allocations, bytes, freed;
static atomic_long started, joined, reads, writes, yields, sleeps;
static struct start starts[MOST_STARTS];
/* What the C library has taken for the starts of threads, which it may keep. */
static _Atomic(void *) kept[MOST_STARTS];
static atomic_int stands, holds;
static __thread int is_starting;

static int (*next_create)(pthread_t *, const pthread_attr_t *, void *(*)(void *), void *);
static int (*next_join)(pthread_t, void **);
static ssize_t (*next_read)(int, void *, size_t), (*next_write)(int, const void *, size_t);
static long (*next_syscall)(long, ...);
static int (*next_yield)(void);

/* Counts a request, and says whether it is to be refused. */
static int is_refused(struct rule *rule) {
    long number = stands ? ++rule->asked : 0;
    int refused = number && rule->first && (rule->onward ? number >= rule->first : number == rule->first);
    rule->refused += refused;
    return refused;
}

/* Counts what was got for a request for so many bytes, in place of `old`. */
static void *counted(void *got, void *old, size_t size) {
    if (!got || !stands)
        return got;
    if (!is_starting) {
        allocations++;
        bytes += size;
        freed += old != NULL;
    }
    for (int at = 0; is_starting && at < MOST_STARTS; at++) {
        void *none = NULL;
        if (atomic_compare_exchange_strong(&kept[at], &none, got))
            break;
    }
    return got;
}

/* Hands a request for memory on or not, and counts it. */
#define REQUEST(given, old, size) (is_refused(&memory) ? (errno = ENOMEM, NULL) : counted(given, old, size))

void *malloc(size_t size) { return REQUEST(__libc_malloc(size), NULL, size); }
void *calloc(size_t count, size_t size) { return REQUEST(__libc_calloc(count, size), NULL, count * size); }
void *realloc(void *old, size_t size) { return REQUEST(__libc_realloc(old, size), old, size); }
void *memalign(size_t align, size_t size) { return REQUEST(__libc_memalign(align, size), NULL, size); }
void *aligned_alloc(size_t align, size_t size) { return memalign(align, size); }

int posix_memalign(void **made, size_t align, size_t size) {
    void *room = memalign(align, size);
    return room ? (*made = room, 0) : ENOMEM;
}

void free(void *old) {
    int is_kept = 0;
    for (int at = 0; old && at < MOST_STARTS && !is_kept; at++) {
        void *it = old;
        is_kept = atomic_compare_exchange_strong(&kept[at], &it, NULL);
    }
    freed += stands && old && !is_kept;
    __libc_free(old);
}

/* A thread that is held: it waits until it is joined. */
static void *held(void *argument) {
    struct start *its = argument;
    while (sem_wait(&its->joined))
        ;
    return its->body(its->argument);
}

int pthread_create(pthread_t *id, const pthread_attr_t *how, void *(*body)(void *), void *argument) {
    struct start *its = &starts[thread.asked % MOST_STARTS];
    its->before = memory.asked;
    int status = EAGAIN;
    if (!is_refused(&thread)) {
        its->body = body;
        its->argument = argument;
        is_starting = 1;
        status = holds ? next_create(id, how, held, its) : next_create(id, how, body, argument);
        is_starting = 0;
        its->id = status ? 0 : *id;
    }
    started += !status;
    its->after = memory.asked;
    return status;
}

int pthread_join(pthread_t id, void **answer) {
    for (int at = 0; holds && at < MOST_STARTS; at++)
        if (starts[at].id == id)
            sem_post(&starts[at].joined);
    int status = next_join(id, answer);
    joined += !status;
    return status;
}

static size_t moved(size_t size) { return most_bytes && size > most_bytes ? most_bytes : size; }

ssize_t read(int file, void *room, size_t size) {
    reads += stands;
    if (is_refused(&reading))
        return errno = EIO, -1;
    return next_read(file, room, moved(size));
}

ssize_t write(int file, const void *text, size_t size) {
    writes += stands;
    if (file != STDOUT_FILENO)
        return next_write(file, text, size);
    if (is_refused(&writing))
        return errno = EIO, -1;
    return is_refused(&taking) ? 0 : next_write(file, text, moved(size));
}

int sched_yield(void) {
    yields += stands;
    return next_yield();
}

/* A thread sleeps by a wait with a limit. */
long syscall(long number, ...) {
    long words[6];
    va_list rest;
    va_start(rest, number);
    for (int at = 0; at < 6; at++)
        words[at] = va_arg(rest, long);
    va_end(rest);
    const struct timespec *limit = (const struct timespec *)words[3];
    int is_wait = number == SYS_futex && (words[1] & FUTEX_CMD_MASK) == FUTEX_WAIT && limit && limit->tv_sec < NO_LIMIT;
    sleeps += stands && is_wait;
    return next_syscall(number, words[0], words[1], words[2], words[3], words[4], words[5]);
}

static void read_rule(struct rule *rule, const char *name) {
    const char *text = getenv(name);
    char *end = "";
    rule->first = text ? strtol(text, &end, 10) : 0;
    rule->onward = *end == '+';
}

__attribute__((constructor)) static void begin(void) {
    *(void **)&next_create = dlsym(RTLD_NEXT, "pthread_create");
    *(void **)&next_join = dlsym(RTLD_NEXT, "pthread_join");
    *(void **)&next_read = dlsym(RTLD_NEXT, "read");
    *(void **)&next_write = dlsym(RTLD_NEXT, "write");
    *(void **)&next_syscall = dlsym(RTLD_NEXT, "syscall");
    *(void **)&next_yield = dlsym(RTLD_NEXT, "sched_yield");
    for (int at = 0; at < MOST_STARTS; at++)
        sem_init(&starts[at].joined, 0, 0);
    read_rule(&memory, "REFUSE_MEMORY");
    read_rule(&thread, "REFUSE_THREAD");
    read_rule(&reading, "REFUSE_READ");
    read_rule(&writing, "REFUSE_WRITE");
    read_rule(&taking, "TAKE_NONE");
    const char *most = getenv("MOST_BYTES");
    most_bytes = most ? strtoul(most, NULL, 10) : 0;
    holds = getenv("HOLD_THREADS") != NULL;
    stands = 1;
}

/* Writes the counts, once, where the process ends: by _exit, or by a return from main. */
__attribute__((destructor)) static void write_counts(void) {
    const char *name = getenv("WRITE_COUNTS");
    long left = allocations - freed;
    int is_first = atomic_exchange(&stands, 0);
    FILE *file = is_first && name ? fopen(name, "w") : NULL;
    if (!file)
        return;
    fprintf(file, "memory %ld\nmemory_refused %ld\nallocations %ld\nbytes %ld\nleft %ld\n", memory.asked, memory.refused,
            allocations, bytes, left);
    fprintf(file, "threads %ld\nstarted %ld\njoined %ld\n", thread.asked, started, joined);
    fprintf(file, "reads %ld\nwrites %ld\nyields %ld\nsleeps %ld\n", reads, writes, yields, sleeps);
    for (int at = 0; at < thread.asked && at < MOST_STARTS; at++)
        fprintf(file, "start %ld %ld\n", starts[at].before, starts[at].after);
    if (fclose(file))
        abort();
}

void _exit(int status) {
    write_counts();
    next_syscall(SYS_exit_group, status);
    __builtin_unreachable();
}
