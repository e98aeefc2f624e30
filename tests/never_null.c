/* Stands between the calls of tardis.h and the library's exports, by --wrap. No pointer that an export is given is
   null, as the header says: the first export that is given one is printed, and the program ends with status 1. */
#include "tardis.h"

#include <stdio.h>
#include <stdlib.h>

#define NEVER_NULL(name, parameters, arguments, ...) \
    uint32_t __real_##name parameters; \
    uint32_t __wrap_##name parameters; \
    uint32_t __wrap_##name parameters { \
        const void *given[] = {__VA_ARGS__}; \
        for (size_t at = 0; at < sizeof given / sizeof *given; at++) { \
            if (!given[at]) { \
                printf("never_null.c: %s is given null as its pointer %zu\n", #name, at); \
                exit(1); \
            } \
        } \
        return __real_##name arguments; \
    }

NEVER_NULL(tardis_c_litmus,
           (const uint8_t *text, size_t a, const struct tardis_options *options, uint8_t *out, size_t size, size_t *n),
           (text, a, options, out, size, n), text, options, out, n)
NEVER_NULL(tardis_c_ends,
           (const uint8_t *text, size_t a, uint64_t states, uint32_t orders, uint32_t json, uint8_t *out, size_t size,
            size_t *n),
           (text, a, states, orders, json, out, size, n), text, out, n)
NEVER_NULL(tardis_c_trace,
           (const uint8_t *text, size_t a, const struct tardis_options *options, uint8_t *out, size_t size, size_t *n),
           (text, a, options, out, size, n), text, options, out, n)
NEVER_NULL(tardis_c_check,
           (const uint8_t *trace, size_t a, const uint8_t *records, size_t b, uint8_t *out, size_t size, size_t *n),
           (trace, a, records, b, out, size, n), trace, records, out, n)
NEVER_NULL(tardis_c_check_opened,
           (const uint8_t *opening, size_t a, const uint8_t *trace, size_t b, const uint8_t *records, size_t c,
            uint32_t complete, uint32_t json, uint8_t *out, size_t size, size_t *n),
           (opening, a, trace, b, records, c, complete, json, out, size, n), opening, trace, records, out, n)
NEVER_NULL(tardis_c_check_arrays,
           (const struct tardis_operation *operations, size_t a, const struct tardis_record *records, size_t b,
            struct tardis_told *told),
           (operations, a, records, b, told), operations, records, told)
NEVER_NULL(tardis_c_check_history,
           (const struct tardis_word *opening, size_t a, const struct tardis_operation *operations, size_t b,
            const struct tardis_record *records, size_t c, struct tardis_found *found),
           (opening, a, operations, b, records, c, found), opening, operations, records, found)
NEVER_NULL(tardis_c_first_lack,
           (const struct tardis_operation *operations, size_t a, const struct tardis_record *records, size_t b,
            struct tardis_lack *lack),
           (operations, a, records, b, lack), operations, records, lack)
