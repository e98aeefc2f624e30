/* Linked into a program whose module has changes behind switches (tests/module_text.py), of which there are COUNT.
     MUTANT=N           change N is made, and the program ends at MUTANT_SECONDS of processor time or 4 GB of memory;
                        of 0 there is no change
     MUTANT_MET=FILE    the file's byte N is one once change N's place was come by; of byte 0 there is a bit if the time
                        was over, and one if a call wasn't noted
     MUTANT_NOTED=PATH  the call is noted in files whose names begin so: its words, the texts of the files that they
                        name, and what is on standard input; not where its limits aren't those of MUTANT_LIMITS, it has
                        a shim, or it reads or writes something else than files, pipes and nothing
   Without these it does nothing. */
#define _GNU_SOURCE
#include <fcntl.h>
#include <signal.h>
#include <stdio.h>
#include <stdlib.h>
#include <string.h>
#include <sys/mman.h>
#include <sys/resource.h>
#include <sys/stat.h>
#include <time.h>
#include <unistd.h>

#define PAGES ((COUNT + 4095) / 4096 * 4096)

char mutants_on[COUNT];
char mutants_met[PAGES] __attribute__((aligned(4096)));

static void is_over(int signal) {
    (void)signal;
    mutants_met[0] |= 1;
    _exit(99);
}

static void limit(int resource, rlim_t most) {
    struct rlimit was;
    if (getrlimit(resource, &was) == 0 && was.rlim_cur > most) {
        was.rlim_cur = most;
        setrlimit(resource, &was);
    }
}

static int has_limits(const char *usual) {
    const int limited[] = {RLIMIT_AS, RLIMIT_FSIZE, RLIMIT_DATA, RLIMIT_NOFILE};
    char said[128] = "";
    for (int at = 0; at < 4; at++) {
        struct rlimit is;
        getrlimit(limited[at], &is);
        snprintf(said + strlen(said), sizeof said - strlen(said), "%lld ", (long long)is.rlim_cur);
    }
    return usual && strcmp(said, usual) == 0;
}

/* Whether a descriptor is a file, a pipe, or nothing. */
static int is_plain(int descriptor, int *is_nothing) {
    struct stat is, nothing;
    if (fstat(descriptor, &is) || stat("/dev/null", &nothing))
        return 0;
    *is_nothing = S_ISCHR(is.st_mode) && is.st_rdev == nothing.st_rdev;
    return *is_nothing || S_ISREG(is.st_mode) || S_ISFIFO(is.st_mode);
}

/* A copy of what is read, from its beginning. */
static int copied(int from, const char *place, const char *name) {
    static char piece[1 << 16];
    char path[4096];
    snprintf(path, sizeof path, "%s.%s", place, name);
    int to = open(path, O_RDWR | O_CREAT | O_TRUNC | O_CLOEXEC, 0644);
    for (ssize_t count; (count = read(from, piece, sizeof piece)) > 0;)
        if (write(to, piece, count) != count)
            mutants_met[0] |= 2;
    lseek(to, 0, SEEK_SET);
    return to;
}

/* Copies the files that the call's words name. */
static int noted_words(int words, const char *place) {
    static char row[1 << 18];
    ssize_t length = read(words, row, sizeof row - 1);
    int number = 0;
    for (char *word = row; word < row + length; word += strlen(word) + 1, number++) {
        char *path = strncmp(word, "--", 2) ? word : strchr(word, '='), name[16];
        struct stat is;
        path += path && *path == '=';
        if (number == 0 || !path || stat(path, &is) || S_ISDIR(is.st_mode) || !strncmp(path, "/dev/", 5))
            continue;
        int file = S_ISREG(is.st_mode) ? open(path, O_RDONLY | O_CLOEXEC) : -1;
        if (file < 0)
            return 0;
        snprintf(name, sizeof name, "%d", number);
        close(copied(file, place, name));
        close(file);
    }
    return length < (ssize_t)sizeof row - 1;
}

static int is_noted(const char *start) {
    struct timespec now;
    char place[4000];
    int nothing[3];
    if (!has_limits(getenv("MUTANT_LIMITS")) || getenv("LD_PRELOAD") || !is_plain(0, &nothing[0])
        || !is_plain(1, &nothing[1]) || !is_plain(2, &nothing[2]))
        return 0;
    clock_gettime(CLOCK_MONOTONIC, &now);
    snprintf(place, sizeof place, "%s%d-%lld", start, getpid(), now.tv_sec * 1000000000LL + now.tv_nsec);
    int line = open("/proc/self/cmdline", O_RDONLY | O_CLOEXEC), words = copied(line, place, "words");
    int is_good = noted_words(words, place);
    close(line);
    close(words);
    if (is_good && !nothing[0]) {
        int file = copied(0, place, "input");
        dup2(file, 0);
        close(file);
    }
    return is_good;
}

__attribute__((constructor)) static void begin(void) {
    const char *number = getenv("MUTANT"), *met = getenv("MUTANT_MET"), *seconds = getenv("MUTANT_SECONDS");
    const char *noted = getenv("MUTANT_NOTED");
    int file = met ? open(met, O_RDWR | O_CLOEXEC) : -1;
    if (file >= 0) {
        mmap(mutants_met, PAGES, PROT_READ | PROT_WRITE, MAP_SHARED | MAP_FIXED, file, 0);
        close(file);
    }
    if (noted && !is_noted(noted))
        mutants_met[0] |= 2;
    if (number && atoi(number) >= 0 && atoi(number) < COUNT) {
        mutants_on[atoi(number)] = atoi(number) > 0;
        signal(SIGXCPU, is_over);
        limit(RLIMIT_CPU, seconds ? atoi(seconds) : 10);
        limit(RLIMIT_AS, 4000000000);
    }
}
