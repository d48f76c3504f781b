/* Sums one column of a million numbers 64 times over, parted among so many threads; prints the milliseconds. */
#include <pthread.h>
#include <stdint.h>
#include <stdio.h>
#include <stdlib.h>
#include <time.h>

#define ROWS 1000000
#define SUMS 64

static int64_t column[ROWS];
static int64_t totals[16];
static int parts;

/* The sums that fall to a thread: each takes in the numbers above a bound of its own. */
static void *work(void *which)
{
    int part = (int)(intptr_t)which;
    int64_t total = 0;
    for (int sum = part; sum < SUMS; sum += parts)
        for (int row = 0; row < ROWS; row++)
            total += column[row] > 700 * sum ? column[row] : 0;
    totals[part] = total;
    return NULL;
}

int main(int count, char **words)
{
    pthread_t threads[16];
    struct timespec began, ended;
    parts = count > 1 ? atoi(words[1]) : 1;
    if (parts < 1 || parts > 16)
        return 2;
    for (int row = 0; row < ROWS; row++)
        column[row] = (int64_t)row * 7919 % 100000;
    clock_gettime(CLOCK_MONOTONIC, &began);
    for (int part = 1; part < parts; part++)
        if (pthread_create(&threads[part], NULL, work, (void *)(intptr_t)part))
            return 2;
    work(NULL);
    for (int part = 1; part < parts; part++)
        pthread_join(threads[part], NULL);
    clock_gettime(CLOCK_MONOTONIC, &ended);
    int64_t total = 0;
    for (int part = 0; part < parts; part++)
        total += totals[part];
    printf("%.3f\n", (double)(ended.tv_sec - began.tv_sec) * 1e3 + (double)(ended.tv_nsec - began.tv_nsec) / 1e6);
    return total == 0;
}
