/* SPDX-License-Identifier: MIT OR Apache-2.0 */
/* A loop in a team of threads, by the calls that gcc makes of OpenMP's directives: clang's are those
 * of another library. */
#include <stdbool.h>
#include <stdio.h>

void GOMP_parallel(void (*function)(void *), void *data, unsigned threads, unsigned flags);
bool GOMP_loop_dynamic_start(long begin, long end, long step, long chunk, long *from, long *to);
bool GOMP_loop_dynamic_next(long *from, long *to);
void GOMP_loop_end(void), GOMP_barrier(void), GOMP_critical_start(void), GOMP_critical_end(void);
int omp_get_thread_num(void), omp_get_num_threads(void);

static long sum;
static int threads, numbers, last;
static __thread long own;

static void part(void *data) {
    long from, to;
    for (bool more = GOMP_loop_dynamic_start(0, 1000, 1, 7, &from, &to); more;
         more = GOMP_loop_dynamic_next(&from, &to))
        for (long i = from; i < to; i++) own += i * i;
    GOMP_loop_end();
    GOMP_critical_start();
    sum += own;
    threads++;
    numbers += omp_get_thread_num();
    GOMP_critical_end();
    GOMP_barrier();
    if (omp_get_thread_num() == 0) last = threads;
    *(int *)data = omp_get_num_threads();
}

int main(void) {
    int asked = 0;
    GOMP_parallel(part, &asked, 4, 0);
    printf("%ld %d %d %d %d\n", sum, threads, numbers, last, asked);
    return 0;
}
