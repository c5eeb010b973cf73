/* A stand-in for the program, whose thread runs periods with or without branches on the stock. test_branches.py counts
   the instructions of this thread as it counts those of the program's.

   It reads the scenario of that test. ON_POSITION adds a branch on the position, ON_STOCK one on the stock. */
#include <pthread.h>
#include <stdio.h>
#include <string.h>

/* The compiler makes a branch of an `if` with this in it. */
#define KEEP __asm__ volatile("")

static long periods, stock, low, high;
static volatile long cost;

/* Its name reads core::scope::entry(void*). */
void *_ZN4core5scope5entryEPv(void *unused) {
    long now = stock, sum = 0, order;
    for (long period = 0; period < periods; period++) {
#ifdef ON_POSITION
        order = 0;
        if (now < low) {
            KEEP;
            order = high - now;
        }
#else
        order = (high - now) & -(now < low);
#endif
        now += order - (1 + period % 4);
#ifdef ON_STOCK
        if (now < 0) {
            KEEP;
            sum -= 5 * now;
        }
#else
        sum -= 5 * now & -(now < 0);
#endif
    }
    cost = sum;
    return unused;
}

/* Returns the number behind a name. */
static long number_of(const char *text, const char *name) {
    long number = 0;
    const char *found = strstr(text, name);
    if (found)
        sscanf(found + strlen(name), " = %ld", &number);
    return number;
}

int main(void) {
    static char text[4096];
    pthread_t thread;
    text[fread(text, 1, sizeof text - 1, stdin)] = 0;
    periods = number_of(text, "periods");
    stock = number_of(text, "initial");
    low = number_of(text, ", s");
    high = number_of(text, ", S");
    return pthread_create(&thread, NULL, _ZN4core5scope5entryEPv, NULL) || pthread_join(thread, NULL);
}
