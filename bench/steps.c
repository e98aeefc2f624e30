/* The text of a trace for bench/streams.sh: cc -O2 steps.c && ./a.out OPERATIONS
 * Operations of 16 cores on 65,536 words: six loads to three stores and a swap, drawn by a fixed formula. */
#include <inttypes.h>
#include <stdio.h>
#include <stdlib.h>

int main(int count, char **words) {
    uint64_t operations = count == 2 ? strtoull(words[1], NULL, 10) : 0;
    uint64_t x = 1;
    for (uint64_t i = 1; i <= operations; i++) {
        x = x * 16807 % 2147483647;
        unsigned core = x % 16;
        x = x * 16807 % 2147483647;
        unsigned address = 8 * (x / 16 % 65536);
        int is_out = i % 10 < 6 ? printf("%u R 0x%x\n", core, address)
                                : printf("%u %c 0x%x %" PRIu64 "\n", core, i % 10 < 9 ? 'W' : 'S', address, i);
        if (is_out < 0)
            return 1;
    }
    return fflush(stdout) ? 1 : operations == 0;
}
