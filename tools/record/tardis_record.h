// A region of interest, for programs in C and C++ that tools/record/record.sh records: if a program calls
// tardis_begin(), only what all its threads do between that and tardis_end() is recorded. It may call both again.
// Elsewhere the calls do nothing.
#pragma once

#ifdef __cplusplus
extern "C" {
#endif
void tardis_record_begin(void) __attribute__((weak));
void tardis_record_end(void) __attribute__((weak));
#ifdef __cplusplus
}
#endif

static inline void tardis_begin(void) {
    if (tardis_record_begin) {
        tardis_record_begin();
    }
}

static inline void tardis_end(void) {
    if (tardis_record_end) {
        tardis_record_end();
    }
}
