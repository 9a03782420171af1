/* How fast the calls are for C. Prints how long a call takes on a setup that is refused at once, which is what every call pays for its
 * setup being taken from its words, and how many scores one thread and two threads work out in a second, in turn. Wants a machine with
 * nothing else to do. */
#include <pthread.h>
#include <stdio.h>
#include <stdlib.h>
#include <string.h>
#include <time.h>

#include "../../include/portal.h"

#define ROUNDS 9

static uint64_t setup[PORTAL_SETUP_WORDS], empty[PORTAL_SETUP_WORDS];

static double now(clockid_t clock)
{
    struct timespec t;
    clock_gettime(clock, &t);
    return (double)t.tv_sec + 1e-9 * (double)t.tv_nsec;
}

static int by_size(const void *a, const void *b)
{
    double x = *(const double *)a, y = *(const double *)b;
    return (x > y) - (x < y);
}

static double median(double *of)
{
    qsort(of, ROUNDS, sizeof *of, by_size);
    return of[ROUNDS / 2];
}

/* Microseconds of a call that is refused with 12 as soon as the setup is there: its item count is 0. */
static double refused(void)
{
    double took[ROUNDS];
    const int calls = 20000;
    for (int i = 0; i < ROUNDS; i++) {
        double began = now(CLOCK_THREAD_CPUTIME_ID);
        for (int k = 0; k < calls; k++)
            if (portal_closure(empty, PORTAL_SETUP_WORDS, 0).number != PORTAL_NO_SETUP)
                abort();
        took[i] = (now(CLOCK_THREAD_CPUTIME_ID) - began) / calls * 1e6;
    }
    return median(took);
}

enum { CALLS = 4000 };

/* Scores in a second of the thread's own processor time, which other programs take nothing from. */
static void *work(void *rate)
{
    double began = now(CLOCK_THREAD_CPUTIME_ID);
    for (int k = 0; k < CALLS; k++)
        if (portal_setup_score(setup, PORTAL_SETUP_WORDS, (uint64_t)(k % 2) + 3).number != 0)
            abort();
    *(double *)rate = CALLS / (now(CLOCK_THREAD_CPUTIME_ID) - began);
    return NULL;
}

/* Scores in a second, by so many threads, each of which works out as many; and in a second of processor time of each. */
static double scores(int threads, double *rate)
{
    pthread_t id[2];
    double own[2] = { 0, 0 }, began = now(CLOCK_MONOTONIC);
    for (int i = 0; i < threads; i++)
        if (pthread_create(&id[i], NULL, work, &own[i]) != 0)
            abort();
    for (int i = 0; i < threads; i++)
        pthread_join(id[i], NULL);
    *rate = own[0] + own[1];
    return threads * CALLS / (now(CLOCK_MONOTONIC) - began);
}

int main(int argc, char **argv)
{
    static uint8_t sheet[PORTAL_MAX_SHEET];
    double one[ROUNDS], two[ROUNDS], own[ROUNDS], owns[ROUNDS];
    FILE *file = argc > 1 ? fopen(argv[1], "rb") : NULL;
    if (file == NULL || portal_read(sheet, fread(sheet, 1, sizeof sheet, file), setup, PORTAL_SETUP_WORDS).number != 0) {
        fprintf(stderr, "usage: speed SHEET\n");
        return 2;
    }
    memcpy(empty, setup, sizeof empty);
    empty[PORTAL_COUNT] = 0;
    for (int i = 0; i < ROUNDS; i++) {
        one[i] = scores(1, &own[i]);
        two[i] = scores(2, &owns[i]);
    }
    double alone = median(one), both = median(two), each = median(own), all = median(owns);
    printf("a call that is refused with 12: %.2f microseconds\n", refused());
    printf("scores in a second: %.0f on one thread, %.0f on two, %.2f times as many\n", alone, both, both / alone);
    printf("in a second of each thread's processor time: %.0f and %.0f, %.2f times as many\n", each, all, all / each);
    return 0;
}
