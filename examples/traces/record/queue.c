// Two threads put numbers into a lock-free queue and two take them out. The queue is a linked list with a dummy node in
// front: Michael and Scott's algorithm. Nodes are never used twice, so no node can be mistaken for an older one.
#include <pthread.h>
#include <stdatomic.h>
#include <stdio.h>

enum { PAIRS = 2, EACH = 16, LINE = 64 };

struct node {
    _Alignas(LINE) long value;
    _Atomic(struct node *) next;
};

static struct node nodes[1 + PAIRS * EACH];
static _Alignas(LINE) _Atomic(struct node *) head = &nodes[0];
static _Alignas(LINE) _Atomic(struct node *) tail = &nodes[0];
static long taken[PAIRS];
static pthread_barrier_t start;

static void put(struct node *node, long value) {
    node->value = value;
    for (;;) {
        struct node *last = atomic_load(&tail), *next = atomic_load(&last->next);
        if (next != NULL) {
            atomic_compare_exchange_strong(&tail, &last, next);
        } else if (atomic_compare_exchange_strong(&last->next, &next, node)) {
            atomic_compare_exchange_strong(&tail, &last, node);
            return;
        }
    }
}

// The number that has been in the queue longest. It waits while the queue is empty.
static long take(void) {
    for (;;) {
        struct node *first = atomic_load(&head), *last = atomic_load(&tail), *next = atomic_load(&first->next);
        if (next != NULL && first == last) {
            atomic_compare_exchange_strong(&tail, &last, next);
        } else if (next != NULL && atomic_compare_exchange_strong(&head, &first, next)) {
            return next->value;
        }
    }
}

static void *producer(void *number) {
    long mine = (long)number;
    pthread_barrier_wait(&start);
    for (long i = 1; i <= EACH; i++) {
        put(&nodes[mine * EACH + i], mine * EACH + i);
    }
    return NULL;
}

static void *consumer(void *number) {
    long sum = 0;
    pthread_barrier_wait(&start);
    for (int i = 0; i < EACH; i++) {
        sum += take();
    }
    taken[(long)number] = sum;
    return NULL;
}

int main(void) {
    pthread_t threads[2 * PAIRS];
    pthread_barrier_init(&start, NULL, 2 * PAIRS);
    for (long i = 0; i < 2 * PAIRS; i++) {
        if (pthread_create(&threads[i], NULL, i < PAIRS ? producer : consumer, (void *)(i % PAIRS)) != 0) {
            return 1;
        }
    }
    for (int i = 0; i < 2 * PAIRS; i++) {
        pthread_join(threads[i], NULL);
    }
    printf("taken %ld\n", taken[0] + taken[1]);
    return taken[0] + taken[1] != PAIRS * EACH * (PAIRS * EACH + 1) / 2;
}
