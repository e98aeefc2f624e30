// Four threads sum up parts of an array, each in a word of its own. The words of the sums are neighbours in one line of
// 64 bytes; with -DAPART each has a line to itself.
#include <pthread.h>
#include <stdio.h>

enum { THREADS = 4, EACH = 64, LINE = 64 };

#ifdef APART
struct sum {
    _Alignas(LINE) long value;
};
#else
struct sum {
    long value;
};
#endif

static _Alignas(LINE) long numbers[THREADS * EACH];
static _Alignas(LINE) struct sum sums[THREADS];
static pthread_barrier_t start;

static void *work(void *mine) {
    volatile long *sum = &((struct sum *)mine)->value;
    long from = ((struct sum *)mine - sums) * EACH;
    pthread_barrier_wait(&start);
    for (long i = from; i < from + EACH; i++) {
        *sum = *sum + numbers[i];
    }
    return NULL;
}

int main(void) {
    pthread_t threads[THREADS];
    for (int i = 0; i < THREADS * EACH; i++) {
        numbers[i] = i;
    }
    pthread_barrier_init(&start, NULL, THREADS);
    for (int i = 0; i < THREADS; i++) {
        if (pthread_create(&threads[i], NULL, work, &sums[i]) != 0) {
            return 1;
        }
    }
    long total = 0;
    for (int i = 0; i < THREADS; i++) {
        pthread_join(threads[i], NULL);
        total += sums[i].value;
    }
    printf("total %ld\n", total);
    return total != THREADS * EACH * (THREADS * EACH - 1) / 2;
}
