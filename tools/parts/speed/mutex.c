// A sum under a pthread mutex: the rival in C of the kernels `turn-1`, `turn-2` and `turn-4`. The words
// THREADS COUNT let that many threads add 7 in all COUNT times, each time under the lock, and print the sum.
// One thread more is started and ended before, since a process that never had a second thread may lock
// without atomic steps.
#include <pthread.h>
#include <stdio.h>
#include <stdlib.h>

static pthread_mutex_t lock = PTHREAD_MUTEX_INITIALIZER;
static volatile unsigned long total;
static long each;

static void *idle(void *unused) { return unused; }

static void *add(void *unused) {
    for (long i = 0; i < each; i++) {
        pthread_mutex_lock(&lock);
        total += 7;
        pthread_mutex_unlock(&lock);
    }
    return unused;
}

int main(int count, char **words) {
    pthread_t threads[8];
    int callers = count > 1 ? atoi(words[1]) : 1;
    if (callers < 1 || callers > 8) return 2;
    each = (count > 2 ? atol(words[2]) : 0) / callers;
    pthread_create(&threads[0], NULL, idle, NULL);
    pthread_join(threads[0], NULL);
    for (int i = 1; i < callers; i++) pthread_create(&threads[i], NULL, add, NULL);
    add(NULL);
    for (int i = 1; i < callers; i++) pthread_join(threads[i], NULL);
    printf("%lu\n", total);
    return 0;
}
