/* Checks the records of a trace, both from files, and prints the line of the verdict: check TRACE RECORDS. Status 0 if
   the records are legal, 1 if they aren't, and 2 if there is no verdict: then standard error says why. */
#include "tardis.h"

#include <stdio.h>
#include <stdlib.h>

/* The bytes of a file, and how many there are; null if it can't be read or kept. The caller frees them. */
static char *text_of(const char *name, size_t *length) {
    FILE *file = fopen(name, "rb");
    char *text = NULL, *longer;
    size_t got = 65536;
    *length = 0;
    if (!file) return NULL;
    while (got == 65536 && (longer = (char *)realloc(text, *length + 65536))) {
        text = longer;
        got = fread(text + *length, 1, 65536, file);
        *length += got;
    }
    if (got == 65536 || ferror(file)) {
        free(text);
        text = NULL;
    }
    fclose(file);
    return text;
}

int main(int count, char **words) {
    size_t trace_length = 0, records_length = 0, length = 0;
    char *trace = count == 3 ? text_of(words[1], &trace_length) : NULL;
    char *records = count == 3 ? text_of(words[2], &records_length) : NULL;
    char line[100]; /* no verdict's and no error's line is longer */
    int number = TARDIS_NULL;
    if (trace && records)
        number = tardis_check(trace, trace_length, records, records_length, line, sizeof line, &length);
    else
        fputs("check: give a trace and its records: two files that can be read\n", stderr);
    if (length <= sizeof line)
        fwrite(line, 1, length, number == TARDIS_DONE || number == TARDIS_NOT_DONE ? stdout : stderr);
    free(trace);
    free(records);
    return number == TARDIS_DONE ? 0 : number == TARDIS_NOT_DONE ? 1 : 2;
}
