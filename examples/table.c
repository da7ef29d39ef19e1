/* Walks a table by the clock, in C99 and POSIX: pfair run -f c plan.csv > schedule.h && cc -std=c99 -pthread table.c
   Each processor has a thread, which sleeps up to each slot's begin and gives the slot to its task. */
#define _POSIX_C_SOURCE 200809L
#include <pthread.h>
#include <stdio.h>
#include <time.h>
#include "schedule.h"

static struct timespec start;

/* Yours: let the task run on the processor until the slot ends; 0 is nobody. */
static void give(int processor, int64_t slot, pfair_task task)
{
    printf("%d,%lld,%d\n", processor, (long long)slot, (int)task);
    fflush(stdout);
}

static void *walk(void *argument)
{
    int processor = *(int *)argument, row = 0;
    for (int64_t slot = 0; PFAIR_REPEATS != 0 || slot < PFAIR_SLOTS; slot++) {
        uint64_t ns = (uint64_t)start.tv_nsec + (uint64_t)slot * PFAIR_SLOT_NS;
        struct timespec begin = {start.tv_sec + (time_t)(ns / 1000000000), (long)(ns % 1000000000)};
        while (clock_nanosleep(CLOCK_MONOTONIC, TIMER_ABSTIME, &begin, NULL)) {}
        give(processor, PFAIR_FROM + slot, pfair_schedule[row++][processor]);
        row = row == PFAIR_REPEATS ? 0 : row;
    }
    return NULL;
}

int main(void)
{
    pthread_t threads[PFAIR_PROCESSORS];
    int number[PFAIR_PROCESSORS], p;
    clock_gettime(CLOCK_MONOTONIC, &start);
    for (p = 0; p < PFAIR_PROCESSORS; p++)
        if (number[p] = p, pthread_create(&threads[p], NULL, walk, &number[p])) return 1;
    for (p = 0; p < PFAIR_PROCESSORS; p++) pthread_join(threads[p], NULL);
    return 0;
}
