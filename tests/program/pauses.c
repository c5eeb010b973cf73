/* Stands before a program by LD_PRELOAD. At the end it writes to standard error how often its threads have yielded, and then, for
   the first thread and for all others, the least and the greatest number of nanoseconds that they asked to sleep for (0 and 0 if
   they did not sleep). */
#define _GNU_SOURCE
#include <dlfcn.h>
#include <linux/futex.h>
#include <stdarg.h>
#include <stdatomic.h>
#include <stdio.h>
#include <sys/syscall.h>
#include <time.h>
#include <unistd.h>

typedef long call(long, long, long, long, long, long, long);

/* Longer waits are for a thread's end, and not for the ring. */
static const long longest = 1000000000;

static atomic_long yields, least[2], greatest[2];

static long system_call(long number, long a, long b, long c, long d, long e, long f) {
    static _Atomic(call *) known;
    call *next = known;
    if (!next) {
        known = next = (call *)dlsym(RTLD_NEXT, "syscall");
    }
    return next(number, a, b, c, d, e, f);
}

static void count(int other, const struct timespec *time) {
    long nanoseconds = time->tv_sec < 1 ? time->tv_nsec : longest, seen = least[other];
    if (nanoseconds >= longest) {
        return;
    }
    while ((seen == 0 || nanoseconds < seen) && !atomic_compare_exchange_weak(&least[other], &seen, nanoseconds)) {
    }
    seen = greatest[other];
    while (nanoseconds > seen && !atomic_compare_exchange_weak(&greatest[other], &seen, nanoseconds)) {
    }
}

long syscall(long number, ...) {
    va_list list;
    va_start(list, number);
    long a = va_arg(list, long), b = va_arg(list, long), c = va_arg(list, long), d = va_arg(list, long), e = va_arg(list, long),
         f = va_arg(list, long);
    va_end(list);
    if (number == SYS_futex && (b & FUTEX_CMD_MASK) == FUTEX_WAIT && d) {
        count(getpid() != system_call(SYS_gettid, 0, 0, 0, 0, 0, 0), (const struct timespec *)d);
    }
    return system_call(number, a, b, c, d, e, f);
}

int sched_yield(void) {
    ++yields;
    return system_call(SYS_sched_yield, 0, 0, 0, 0, 0, 0);
}

/* The program ends by this. */
void _exit(int status) {
    char text[160];
    int size = snprintf(text, sizeof text, "%ld %ld %ld %ld %ld\n", (long)yields, (long)least[0], (long)greatest[0], (long)least[1],
                        (long)greatest[1]);
    system_call(SYS_exit_group, write(2, text, size) == size ? status : 1, 0, 0, 0, 0, 0);
    __builtin_unreachable();
}
