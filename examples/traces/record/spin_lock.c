// Four threads count under a spin lock: a thread loads the lock until it is free, and swaps it then.
#include <pthread.h>
#include <stdatomic.h>
#include <stdio.h>

enum { THREADS = 4, COUNTS = 12, LINE = 64 };

static _Alignas(LINE) atomic_long lock;
static _Alignas(LINE) long counter;
static pthread_barrier_t start;

static void take(void) {
    do {
        while (atomic_load_explicit(&lock, memory_order_relaxed) != 0) {
        }
    } while (atomic_exchange_explicit(&lock, 1, memory_order_acquire) != 0);
}

static void release(void) {
    atomic_store_explicit(&lock, 0, memory_order_release);
}

static void *work(void *unused) {
    (void)unused;
    pthread_barrier_wait(&start);
    for (int i = 0; i < COUNTS; i++) {
        take();
        counter++;
        release();
    }
    return NULL;
}

int main(void) {
    pthread_t threads[THREADS];
    pthread_barrier_init(&start, NULL, THREADS);
    for (int i = 0; i < THREADS; i++) {
        if (pthread_create(&threads[i], NULL, work, NULL) != 0) {
            return 1;
        }
    }
    for (int i = 0; i < THREADS; i++) {
        pthread_join(threads[i], NULL);
    }
    printf("counter %ld\n", counter);
    return counter != THREADS * COUNTS;
}
