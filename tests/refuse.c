/* Loaded in front of a program (LD_PRELOAD), it refuses what the environment says:
     REFUSE_GROWTH=N    the Nth growth of memory (malloc, calloc, realloc); N+ also each later one
     REFUSE_READ=N:HOW  the Nth read        REFUSE_WRITE=N:HOW  the Nth write to standard output
     REFUSE_BYTES=FD    nothing; but at the end the sum of all bytes that growths asked for goes to the descriptor
   HOW is error (EIO), interrupted (EINTR), short (one byte is moved, of the Nth and each later call), late (one byte is
   moved by each call before the Nth, which is an error), or, for a write, nothing (no byte is taken).
     REFUSE_SLEEPS=1    nothing; but an s is told for each time that a thread sleeps for 50 microseconds, and a z for
                        each other time
   Bytes go to descriptor REFUSE_TOLD: a t for each thread that is started; and, if something is refused for the first
   time, a w where work is shared by threads (in a thread that was started, or in the first one while it works beside
   such a thread), and else an exclamation mark. */
#define _GNU_SOURCE
#include <dlfcn.h>
#include <errno.h>
#include <pthread.h>
#include <stdio.h>
#include <stdlib.h>
#include <string.h>
#include <sys/syscall.h>
#include <sys/uio.h>
#include <unistd.h>

extern void *__libc_malloc(size_t);
extern void *__libc_calloc(size_t, size_t);
extern void *__libc_realloc(void *, size_t);

enum how { NEVER, ERROR, INTERRUPTED, SHORT, LATE, NOTHING };

typedef int (*create_function)(pthread_t *, const pthread_attr_t *, void *(*)(void *), void *);

struct refusal {
    unsigned long at, made;
    int and_later;
    enum how how;
};

static struct refusal growth, reading, writing;
static int told = -1, tells_sleeps;
static unsigned long asked; /* bytes, by all growths */
static int works; /* the first thread, beside another one */
static ssize_t (*next_read)(int, void *, size_t);
static ssize_t (*next_write)(int, const void *, size_t);
static create_function next_create;
static int (*next_join)(pthread_t, void **);

static enum how how_of(const char *word) {
    if (!strcmp(word, "error")) return ERROR;
    if (!strcmp(word, "interrupted")) return INTERRUPTED;
    if (!strcmp(word, "short")) return SHORT;
    if (!strcmp(word, "late")) return LATE;
    if (!strcmp(word, "nothing")) return NOTHING;
    abort();
}

static void open_refusal(struct refusal *it, const char *name) {
    char *rest, *text = getenv(name);
    if (!text) return;
    it->at = strtoul(text, &rest, 10);
    it->and_later = *rest == '+';
    it->how = *rest == ':' ? how_of(rest + 1) : ERROR;
    if (it->how == SHORT) it->and_later = 1;
}

__attribute__((constructor)) static void begin(void) {
    char *text = getenv("REFUSE_TOLD");
    next_read = (ssize_t (*)(int, void *, size_t))dlsym(RTLD_NEXT, "read");
    next_write = (ssize_t (*)(int, const void *, size_t))dlsym(RTLD_NEXT, "write");
    next_create = (create_function)dlsym(RTLD_NEXT, "pthread_create");
    next_join = (int (*)(pthread_t, void **))dlsym(RTLD_NEXT, "pthread_join");
    if (text) told = atoi(text);
    tells_sleeps = getenv("REFUSE_SLEEPS") != NULL;
    open_refusal(&reading, "REFUSE_READ");
    open_refusal(&writing, "REFUSE_WRITE");
    open_refusal(&growth, "REFUSE_GROWTH");
}

__attribute__((destructor)) static void tell_bytes(void) {
    char *text = getenv("REFUSE_BYTES");
    if (text) dprintf(atoi(text), "%lu\n", asked);
}

/* A program of the kit ends so, without destructors. */
void _exit(int status) {
    tell_bytes();
    syscall(SYS_exit_group, status);
    abort();
}

static int is_first_thread(void) {
    return gettid() == getpid();
}

static void tell(const char *byte) {
    if (told >= 0) next_write(told, byte, 1);
}

static enum how answer_of(struct refusal *it) {
    unsigned long number;
    if (!it->at) return NEVER;
    number = __atomic_add_fetch(&it->made, 1, __ATOMIC_SEQ_CST);
    if (number < it->at && it->how == LATE) return SHORT;
    if (number < it->at || (number > it->at && !it->and_later)) return NEVER;
    if (number == it->at) tell(works || !is_first_thread() ? "w" : "!");
    return it->how == LATE ? ERROR : it->how;
}

static enum how grows(size_t size) {
    __atomic_add_fetch(&asked, size, __ATOMIC_SEQ_CST);
    return answer_of(&growth);
}

void *malloc(size_t size) {
    if (grows(size) == NEVER) return __libc_malloc(size);
    errno = ENOMEM;
    return NULL;
}

void *calloc(size_t count, size_t size) {
    if (grows(count * size) == NEVER) return __libc_calloc(count, size);
    errno = ENOMEM;
    return NULL;
}

void *realloc(void *old, size_t size) {
    if (grows(size) == NEVER) return __libc_realloc(old, size);
    errno = ENOMEM;
    return NULL;
}

static int fails(enum how how) {
    if (how == ERROR) errno = EIO;
    if (how == INTERRUPTED) errno = EINTR;
    return how == ERROR || how == INTERRUPTED;
}

ssize_t read(int file, void *to, size_t size) {
    enum how how = answer_of(&reading);
    if (fails(how)) return -1;
    return next_read(file, to, how == SHORT && size > 1 ? 1 : size);
}

ssize_t write(int file, const void *from, size_t size) {
    enum how how = file == STDOUT_FILENO ? answer_of(&writing) : NEVER;
    if (fails(how)) return -1;
    if (how == NOTHING) return 0;
    return next_write(file, from, how == SHORT && size > 1 ? 1 : size);
}

int pthread_create(pthread_t *thread, const pthread_attr_t *how, void *(*run)(void *), void *with) {
    int error = next_create(thread, how, run, with);
    if (error) return error;
    tell("t");
    if (is_first_thread()) works = 1;
    return 0;
}

int nanosleep(const struct timespec *asked, struct timespec *left) {
    if (tells_sleeps) tell(asked->tv_sec == 0 && asked->tv_nsec == 50000 ? "s" : "z");
    return (int)syscall(SYS_nanosleep, asked, left);
}

int pthread_join(pthread_t thread, void **result) {
    if (is_first_thread()) works = 0;
    return next_join(thread, result);
}
