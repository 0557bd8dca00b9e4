/* SPDX-License-Identifier: MIT OR Apache-2.0 */
/* Threads, each with its own thread-local variables, initialised and not. */
#include <errno.h>
#include <pthread.h>
#include <stdio.h>

#define THREADS 8

static __thread long count = 1000;
__thread char name[24] = "thread";
static __thread int unset[300];
extern __thread long total; /* in threads_other.c */
long add(long);

static pthread_mutex_t lock = PTHREAD_MUTEX_INITIALIZER;
static long sum, results[THREADS];

static void *run(void *argument) {
    long number = *(long *)argument;
    errno = (int)number;
    for (long i = 0; i < 1000; i++) {
        count += number;
        unset[i % 300]++;
        add(i);
    }
    name[6] = (char)('0' + number);
    pthread_mutex_lock(&lock);
    sum += count + total + errno + unset[0] + unset[299];
    pthread_mutex_unlock(&lock);
    results[number] = name[6] - '0' + total;
    return &results[number];
}

int main(void) {
    pthread_t threads[THREADS];
    long numbers[THREADS];
    for (long i = 0; i < THREADS; i++) {
        numbers[i] = i;
        if (pthread_create(&threads[i], NULL, run, &numbers[i])) return 1;
    }
    for (int i = 0; i < THREADS; i++) {
        void *result;
        pthread_join(threads[i], &result);
        printf("%d: %ld\n", i, *(long *)result);
    }
    printf("%ld %ld %ld %s %d\n", sum, count, total, name, unset[1]);
    return 0;
}
