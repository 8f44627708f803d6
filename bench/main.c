// Times the proved CRC-32C and the one in C over the same bytes, in small and in large pieces.
#include <stddef.h>
#include <stdint.h>
#include <stdio.h>
#include <stdlib.h>
#include <time.h>

typedef uint32_t checksum(const uint8_t *bytes, size_t length);

checksum goarfleki_crc32c, c_crc32c;
void c_crc32c_prepare(void);

enum { BYTES = 64 << 20, ROUNDS = 7 };

static double now(void) {
    struct timespec t;
    clock_gettime(CLOCK_MONOTONIC, &t);
    return t.tv_sec * 1e3 + t.tv_nsec * 1e-6;
}

// The time of one pass in milliseconds; `sum` mixes the pieces' values, so that none can be left out.
static double pass(checksum *crc, const uint8_t *buffer, size_t piece, uint32_t *sum) {
    double start = now();
    *sum = 0;
    for (size_t at = 0; at + piece <= BYTES; at += piece)
        *sum = *sum * 31 + crc(buffer + at, piece);
    return now() - start;
}

// Both in turn, so that both meet the same machine; the best pass of each counts, and the first only warms the caches.
static int compare(const uint8_t *buffer, size_t piece) {
    double ours = 1e9, c = 1e9;
    for (int round = 0; round <= ROUNDS; round++) {
        uint32_t our_sum, c_sum;
        double our_time = pass(goarfleki_crc32c, buffer, piece, &our_sum);
        double c_time = pass(c_crc32c, buffer, piece, &c_sum);
        if (our_sum != c_sum) {
            fprintf(stderr, "the values differ at pieces of %zu bytes\n", piece);
            return 1;
        }
        if (round > 0 && our_time < ours)
            ours = our_time;
        if (round > 0 && c_time < c)
            c = c_time;
    }
    printf("pieces of %7zu bytes: ours %6.1f ms, C %6.1f ms, ratio %.2f\n", piece, ours, c, ours / c);
    return 0;
}

int main(void) {
    uint8_t *buffer = malloc(BYTES);
    if (buffer == NULL)
        return 1;
    uint32_t seed = 1;
    for (size_t i = 0; i < BYTES; i++) {
        seed = seed * 1664525u + 1013904223u;
        buffer[i] = seed >> 24;
    }
    c_crc32c_prepare();
    return compare(buffer, 60) | compare(buffer, 1 << 20);
}
