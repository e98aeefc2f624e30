// Records a program that is compiled with -fsanitize=thread: each load, store and swap of each thread, as a trace.
//
// The compiler then calls a function named __tsan_.. at each access that another thread could see. Here are functions
// of these names; no sanitizer is linked. When the program ends, the trace is written to the file that the variable
// TRACE of the environment names. docs/REAL-TRACES.md says how to use it and what a trace leaves out.
//
// Threads take turns at each access, so that the lines stand in one order that keeps each thread's own. An atomic
// operation is made within its turn. Another access is made behind it: so the value of a store is looked up when its
// thread comes back, at its next access or at the end of the function. GCC announces a copy of a structure as a store
// and then a load, before it makes either, and so they stand in the trace. Behind a load of as many bytes the store is
// looked up once more, and that value counts if the two places hold the same by then.
#include <errno.h>
#include <sched.h>
#include <search.h>
#include <stdbool.h>
#include <stdint.h>
#include <stdio.h>
#include <stdlib.h>
#include <string.h>
#include <sys/mman.h>

// The most lines and cores of a trace, and how many of these need its second form.
enum { MOST_LINES = 1 << 24, MOST_CORES = 64, CORES_OF_FORM_1 = 16 };
enum { WORD = 8, PAGE = 4096 };

// An operation on a word. A store's value is not known at first.
struct operation {
    uintptr_t address;
    uint64_t value;
    uint8_t core;
    char letter;
    bool known;
};

// A page of memory that the program used, and its place in the order of first use.
struct page {
    uintptr_t number;
    size_t place;
};

static struct operation *operations;
static size_t recorded, left_out;
static int cores;
static bool closed;
// Whether the program is outside of its region of interest, and how often all that was recorded was dropped: once,
// where the first region begins.
static bool is_outside;
static int dropped;

static unsigned next_ticket;
static unsigned turn;

// This thread's core, and how often all had been dropped when it got that number.
static _Thread_local int this_core = -1, numbered = 0;
// The stores of this thread whose values are not known: a range of operations, the bytes stored to, and how many. If a
// load of as many bytes followed, the stores have values, and may be a copy of these bytes that is still to be made.
static _Thread_local size_t open_from, open_to;
static _Thread_local const volatile void *open_at, *loaded_from;
static _Thread_local size_t open_size;

static void stop(const char *why) {
    fprintf(stderr, "recorder: %s\n", why);
    _Exit(EXIT_FAILURE);
}

// Opens the recorder, before the first access.
void __tsan_init(void) {
    if (operations != NULL) {
        return;
    }
    size_t size = (size_t)MOST_LINES * sizeof *operations;
    operations = mmap(NULL, size, PROT_READ | PROT_WRITE, MAP_PRIVATE | MAP_ANONYMOUS | MAP_NORESERVE, -1, 0);
    if (operations == MAP_FAILED) {
        stop("no memory");
    }
}

static uint64_t word_at(uintptr_t address) {
    return __atomic_load_n((uint64_t *)address, __ATOMIC_RELAXED);
}

static void look_up_open_stores(void) {
    bool is_new = loaded_from == NULL || memcmp((const void *)open_at, (const void *)loaded_from, open_size) == 0;
    for (size_t at = open_from; at < open_to && numbered == dropped && is_new; at++) {
        operations[at].value = word_at(operations[at].address);
        operations[at].known = true;
    }
}

static void wait_for_turn(void) {
    unsigned ticket = __atomic_fetch_add(&next_ticket, 1, __ATOMIC_SEQ_CST);
    while (__atomic_load_n(&turn, __ATOMIC_SEQ_CST) != ticket) {
        sched_yield();
    }
    if (open_from < open_to) {
        look_up_open_stores();
    }
}

static void take_turn(void) {
    wait_for_turn();
    open_from = open_to = 0;
    loaded_from = NULL;
}

static void end_turn(void) {
    __atomic_fetch_add(&turn, 1, __ATOMIC_SEQ_CST);
}

// Adds an operation on each word of the bytes that begin here. Letter R, W or S; of a known value the word is read now.
static void add(char letter, const volatile void *start, size_t size, bool known) {
    if (closed || is_outside || size == 0) {
        return;
    }
    if (this_core < 0 || numbered != dropped) {
        if (cores == MOST_CORES) {
            stop("more threads than a trace has cores");
        }
        this_core = cores++;
        numbered = dropped;
    }
    uintptr_t end = (uintptr_t)start + size;
    for (uintptr_t address = (uintptr_t)start & ~(uintptr_t)(WORD - 1); address < end; address += WORD) {
        if (recorded == MOST_LINES - 1) {
            left_out++;
            continue;
        }
        uint64_t value = letter != 'R' && known ? word_at(address) : 0;
        operations[recorded++] = (struct operation){address, value, (uint8_t)this_core, letter, known};
    }
}

// The region of interest of tardis_record.h.
void tardis_record_begin(void) {
    __tsan_init();
    take_turn();
    if (dropped == 0) {
        dropped = 1;
        recorded = left_out = 0;
        cores = 0;
    }
    is_outside = false;
    end_turn();
}

void tardis_record_end(void) {
    take_turn();
    is_outside = true;
    end_turn();
}

static void loaded(const volatile void *start, size_t size) {
    if (open_from < open_to && loaded_from == NULL && size == open_size) {
        wait_for_turn();
        loaded_from = start;
    } else {
        take_turn();
    }
    add('R', start, size, true);
    end_turn();
}

static void stored(const volatile void *start, size_t size) {
    take_turn();
    open_from = recorded;
    add('W', start, size, false);
    open_to = recorded;
    open_at = start;
    open_size = size;
    end_turn();
}

// Loads and stores of these sizes.
#define ACCESS(NAME, SIZE)                                                                                             \
    void __tsan_read##NAME(void *at) { loaded(at, SIZE); }                                                             \
    void __tsan_write##NAME(void *at) { stored(at, SIZE); }                                                            \
    void __tsan_unaligned_read##NAME(void *at) { loaded(at, SIZE); }                                                   \
    void __tsan_unaligned_write##NAME(void *at) { stored(at, SIZE); }                                                  \
    void __tsan_volatile_read##NAME(void *at) { loaded(at, SIZE); }                                                    \
    void __tsan_volatile_write##NAME(void *at) { stored(at, SIZE); }                                                   \
    void __tsan_unaligned_volatile_read##NAME(void *at) { loaded(at, SIZE); }                                          \
    void __tsan_unaligned_volatile_write##NAME(void *at) { stored(at, SIZE); }                                         \
    void __tsan_read##NAME##_pc(void *at, void *caller) { (void)caller, loaded(at, SIZE); }                            \
    void __tsan_write##NAME##_pc(void *at, void *caller) { (void)caller, stored(at, SIZE); }

ACCESS(1, 1)
ACCESS(2, 2)
ACCESS(4, 4)
ACCESS(8, 8)
ACCESS(16, 16)

void __tsan_read_range(void *at, size_t size) { loaded(at, size); }
void __tsan_write_range(void *at, size_t size) { stored(at, size); }
void __tsan_vptr_read(void **at) { loaded(at, sizeof *at); }

void __tsan_vptr_update(void **at, void *value) {
    (void)value;
    stored(at, sizeof *at);
}

// Copies and fills of memory: the whole of them in one turn.
void *__tsan_memcpy(void *to, const void *from, size_t size) {
    take_turn();
    add('R', from, size, true);
    memmove(to, from, size);
    add('W', to, size, true);
    end_turn();
    return to;
}

void *__tsan_memmove(void *to, const void *from, size_t size) { return __tsan_memcpy(to, from, size); }

void *__tsan_memset(void *to, int byte, size_t size) {
    take_turn();
    memset(to, byte, size);
    add('W', to, size, true);
    end_turn();
    return to;
}

void __tsan_func_entry(void *caller) { (void)caller; }

// At the end of a function its own memory is still there, so its last store can be looked up.
void __tsan_func_exit(void) {
    if (open_from < open_to) {
        take_turn();
        end_turn();
    }
}

void __tsan_atomic_thread_fence(int order) {
    (void)order;
    __atomic_thread_fence(__ATOMIC_SEQ_CST);
}

void __tsan_atomic_signal_fence(int order) {
    (void)order;
    __atomic_signal_fence(__ATOMIC_SEQ_CST);
}

// Operations that load and store at once are swaps of what they store.
#define CHANGE(BITS, TYPE, NAME)                                                                                       \
    TYPE __tsan_atomic##BITS##_##NAME(volatile TYPE *at, TYPE value, int order) {                                      \
        (void)order;                                                                                                   \
        take_turn();                                                                                                   \
        TYPE old = __atomic_##NAME(at, value, __ATOMIC_SEQ_CST);                                                       \
        add('S', at, sizeof *at, true);                                                                                \
        end_turn();                                                                                                    \
        return old;                                                                                                    \
    }

// A compare-and-exchange is a swap if it stores, else a load.
#define ATOMIC(BITS, TYPE)                                                                                             \
    TYPE __tsan_atomic##BITS##_load(const volatile TYPE *at, int order) {                                              \
        (void)order;                                                                                                   \
        take_turn();                                                                                                   \
        TYPE value = __atomic_load_n(at, __ATOMIC_SEQ_CST);                                                            \
        add('R', at, sizeof *at, true);                                                                                \
        end_turn();                                                                                                    \
        return value;                                                                                                  \
    }                                                                                                                  \
    void __tsan_atomic##BITS##_store(volatile TYPE *at, TYPE value, int order) {                                       \
        (void)order;                                                                                                   \
        take_turn();                                                                                                   \
        __atomic_store_n(at, value, __ATOMIC_SEQ_CST);                                                                 \
        add('W', at, sizeof *at, true);                                                                                \
        end_turn();                                                                                                    \
    }                                                                                                                  \
    TYPE __tsan_atomic##BITS##_exchange(volatile TYPE *at, TYPE value, int order) {                                    \
        (void)order;                                                                                                   \
        take_turn();                                                                                                   \
        TYPE old = __atomic_exchange_n(at, value, __ATOMIC_SEQ_CST);                                                   \
        add('S', at, sizeof *at, true);                                                                                \
        end_turn();                                                                                                    \
        return old;                                                                                                    \
    }                                                                                                                  \
    CHANGE(BITS, TYPE, fetch_add)                                                                                      \
    CHANGE(BITS, TYPE, fetch_sub)                                                                                      \
    CHANGE(BITS, TYPE, fetch_and)                                                                                      \
    CHANGE(BITS, TYPE, fetch_or)                                                                                       \
    CHANGE(BITS, TYPE, fetch_xor)                                                                                      \
    CHANGE(BITS, TYPE, fetch_nand)                                                                                     \
    int __tsan_atomic##BITS##_compare_exchange_strong(volatile TYPE *at, TYPE *wanted, TYPE value, int order,          \
                                                      int failed_order) {                                              \
        (void)order, (void)failed_order;                                                                               \
        take_turn();                                                                                                   \
        bool done = __atomic_compare_exchange_n(at, wanted, value, false, __ATOMIC_SEQ_CST, __ATOMIC_SEQ_CST);         \
        add(done ? 'S' : 'R', at, sizeof *at, true);                                                                   \
        end_turn();                                                                                                    \
        return done;                                                                                                   \
    }                                                                                                                  \
    int __tsan_atomic##BITS##_compare_exchange_weak(volatile TYPE *at, TYPE *wanted, TYPE value, int order,            \
                                                    int failed_order) {                                                \
        return __tsan_atomic##BITS##_compare_exchange_strong(at, wanted, value, order, failed_order);                  \
    }                                                                                                                  \
    TYPE __tsan_atomic##BITS##_compare_exchange_val(volatile TYPE *at, TYPE wanted, TYPE value, int order,             \
                                                    int failed_order) {                                                \
        __tsan_atomic##BITS##_compare_exchange_strong(at, &wanted, value, order, failed_order);                        \
        return wanted;                                                                                                 \
    }

ATOMIC(8, uint8_t)
ATOMIC(16, uint16_t)
ATOMIC(32, uint32_t)
ATOMIC(64, uint64_t)

static int by_number(const void *one, const void *other) {
    uintptr_t a = ((const struct page *)one)->number, b = ((const struct page *)other)->number;
    return (a > b) - (a < b);
}

// An address as it stands in the trace: pages take places in the order of their first use, each word keeps its place in
// its page.
static uintptr_t placed(uintptr_t address) {
    static void *pages;
    static size_t used;
    struct page *fresh = malloc(sizeof *fresh);
    if (fresh == NULL) {
        stop("no memory");
    }
    *fresh = (struct page){address / PAGE, used};
    struct page **found = tsearch(fresh, &pages, by_number);
    if (found == NULL) {
        stop("no memory");
    }
    if (*found == fresh) {
        used++;
    } else {
        free(fresh);
    }
    return (*found)->place * PAGE + address % PAGE;
}

static void write_trace(FILE *file) {
    size_t unknown = 0;
    if (cores > CORES_OF_FORM_1) {
        fputs("trace 2\n", file);
    }
    for (size_t at = 0; at < recorded; at++) {
        const struct operation *of = &operations[at];
        unsigned long long address = placed(of->address), value = of->value;
        if (of->letter == 'R') {
            fprintf(file, "%d R 0x%llx\n", of->core, address);
        } else if (of->known) {
            fprintf(file, "%d %c 0x%llx %llu\n", of->core, of->letter, address, value);
        } else {
            unknown++;
        }
    }
    if (left_out > 0) {
        fprintf(stderr, "recorder: the trace has the first %zu accesses; %zu more are left out\n", recorded, left_out);
    }
    if (unknown > 0) {
        fprintf(stderr, "recorder: %zu stores are left out, of threads that went on when the program ended\n", unknown);
    }
}

// Writes the trace when the program ends.
__attribute__((destructor)) static void close_recorder(void) {
    const char *name = getenv("TRACE");
    __tsan_init();
    take_turn();
    closed = true;
    end_turn();
    if (name == NULL) {
        stop("TRACE names no file for the trace");
    }
    FILE *file = fopen(name, "w");
    if (file == NULL) {
        stop(strerror(errno));
    }
    write_trace(file);
    if (fclose(file) != 0) {
        stop(strerror(errno));
    }
}
