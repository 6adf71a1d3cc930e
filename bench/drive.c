/* Reads a file's source through the static library of the reader, or checks its reading through that of the checker: drive read|check FILE TIMES. Without TIMES it prints MB/s. */
#define _POSIX_C_SOURCE 200809L
#include "../bindings/c/vealtikum.h"

#include <stdio.h>
#include <stdlib.h>
#include <string.h>
#include <time.h>

static uint8_t source[VEALTIKUM_LONGEST];
static uint16_t nodes[VEALTIKUM_LONGEST * VEALTIKUM_WIDTH];
static uint8_t text[VEALTIKUM_LONGEST];
static size_t size, count, used;

static void readit(void) {
    size_t place;
    uint8_t kind = vealtikum_read(source, size, nodes, sizeof nodes / sizeof nodes[0], text, sizeof text, &place, &count, &used);
    if (kind != VEALTIKUM_ACCEPTED) {
        fprintf(stderr, "drive: refused, kind %u, place %zu\n", kind, place);
        exit(1);
    }
}

static void checkit(void) {
    if (!vealtikum_check(source, size, nodes, count * VEALTIKUM_WIDTH, text, used)) {
        fprintf(stderr, "drive: the check says no\n");
        exit(1);
    }
}

/* Seconds of the processor that this program has had: what others take of the machine is not in it. */
static double spent(void) {
    struct timespec t;
    clock_gettime(CLOCK_PROCESS_CPUTIME_ID, &t);
    return (double)t.tv_sec + (double)t.tv_nsec * 1e-9;
}

int main(int words, char **word) {
    FILE *file = 2 < words ? fopen(word[2], "rb") : NULL;
    if (file == NULL) {
        fprintf(stderr, "usage: drive read|check FILE [TIMES]\n");
        return 2;
    }
    size = fread(source, 1, sizeof source, file);
    void (*once)(void) = readit;
    if (strcmp(word[1], "check") == 0) {
        readit();
        once = checkit;
    }
    if (3 < words) {
        for (long i = atol(word[3]); 0 < i; i--) once();
        return 0;
    }
    double start = spent(), end = start;
    long times = 0;
    /* the clock is looked at now and then, since a look costs something beside a short source */
    for (; end < start + 0.25; end = spent())
        for (int i = 0; i < 16; i++, times++) once();
    printf("%.3f\n", (double)size * (double)times / (end - start) / 1e6);
    return 0;
}
