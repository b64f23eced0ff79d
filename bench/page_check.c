// The static library of the page's checker as machine code: page_check ROOT QUERY ANSWER PROOF RUNS prints the status, and
// the median of the milliseconds that a check takes.
#include <stdint.h>
#include <stdio.h>
#include <stdlib.h>
#include <time.h>

typedef struct {
    uint32_t reason, cause;
    uint64_t place, ranges, fetched;
} Told;

uint32_t osm_check_verdict(const char *, size_t, const char *, size_t, const char *, size_t, const char *, size_t, Told *);

static char *content(const char *name, size_t *size) {
    FILE *file = fopen(name, "rb");
    if (!file || fseek(file, 0, SEEK_END)) exit(2);
    *size = (size_t)ftell(file);
    rewind(file);
    char *bytes = malloc(*size + 1);
    if (!bytes || fread(bytes, 1, *size, file) != *size) exit(2);
    fclose(file);
    return bytes;
}

static double now(void) {
    struct timespec it;
    clock_gettime(CLOCK_MONOTONIC, &it);
    return (double)it.tv_sec * 1e3 + (double)it.tv_nsec / 1e6;
}

static int in_order(const void *first, const void *second) {
    double x = *(const double *)first, y = *(const double *)second;
    return (x > y) - (x < y);
}

int main(int count, char **words) {
    if (count != 6) return 2;
    char root[32];
    for (int at = 0; at < 32; at++) {
        unsigned byte;
        if (sscanf(words[1] + 2 * at, "%2x", &byte) != 1) return 2;
        root[at] = (char)byte;
    }
    size_t query_size, answer_size, proof_size;
    char *query = content(words[2], &query_size), *answer = content(words[3], &answer_size), *proof = content(words[4], &proof_size);
    int runs = atoi(words[5]);
    double *taken = calloc((size_t)runs, sizeof(double));
    uint32_t status = 9;
    Told told;
    for (int run = 0; run < runs; run++) {
        double begun = now();
        status = osm_check_verdict(query, query_size, root, 32, answer, answer_size, proof, proof_size, &told);
        taken[run] = now() - begun;
    }
    qsort(taken, (size_t)runs, sizeof(double), in_order);
    printf("%u %.3f\n", status, taken[runs / 2]);
    return 0;
}
