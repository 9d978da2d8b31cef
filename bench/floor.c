/* The C floor of crc_speed.rt.txt: CRC_32 by eight tables over the same bytes, as many times; it prints the same line. */
#include <stdint.h>
#include <stdio.h>
#include <stdlib.h>
#include <time.h>

enum { BYTES = 16000000, PASSES = 64 };

static uint32_t T[8][256];

static void tables(void) {
    for (int i = 0; i < 256; i++) {
        uint32_t c = (uint32_t)i << 24;
        for (int k = 0; k < 8; k++) c = c & 0x80000000u ? c << 1 ^ 0x04C11DB7u : c << 1;
        T[0][i] = c;
    }
    for (int i = 0; i < 256; i++)
        for (int k = 1; k < 8; k++) T[k][i] = T[k - 1][i] << 8 ^ T[0][T[k - 1][i] >> 24];
}

static uint32_t crc32(const uint8_t *p, size_t n) {
    uint32_t c = 0xFFFFFFFFu;
    for (; n >= 8; n -= 8, p += 8) {
        uint32_t a = c ^ ((uint32_t)p[0] << 24 | p[1] << 16 | p[2] << 8 | p[3]);
        c = T[7][a >> 24] ^ T[6][a >> 16 & 255] ^ T[5][a >> 8 & 255] ^ T[4][a & 255]
          ^ T[3][p[4]] ^ T[2][p[5]] ^ T[1][p[6]] ^ T[0][p[7]];
    }
    while (n--) c = c << 8 ^ T[0][c >> 24 ^ *p++];
    return c;
}

static uint64_t now(void) {
    struct timespec t;
    clock_gettime(CLOCK_MONOTONIC, &t);
    return (uint64_t)t.tv_sec * 1000000000u + (uint64_t)t.tv_nsec;
}

int main(void) {
    uint8_t *bytes = malloc(BYTES);
    if (!bytes) return 1;
    uint32_t state = 1, mixed = 0;
    for (size_t i = 0; i < BYTES; i++) {
        state = state * 1664525u + 1013904223u;
        bytes[i] = (uint8_t)(state >> 24);
    }
    tables();
    uint64_t fastest = UINT64_MAX;
    for (int pass = 0; pass < PASSES; pass++) {
        uint64_t start = now();
        uint32_t crc = crc32(bytes, BYTES);
        uint64_t spent = now() - start;
        if (spent < fastest) fastest = spent;
        bytes[0] = (uint8_t)crc;
        mixed ^= crc;
    }
    printf("%d %llu %u\n", BYTES, (unsigned long long)fastest, mixed);
    free(bytes);
    return 0;
}
