/* Refinement calls at the full limits, made from a seed: up to 4,096 spots, 4,096 matches and 65,536 directions.
 *
 *   full              makes every call through the static library, and writes what it answers, and how the lent lists were left
 *   full record N     writes call N as an exposure record (longer than a record may be), for the reference to answer
 *   full pairs N      writes how many distances and indices call N is lent
 *   full short        reads the reference's answer to a call, and writes it with one number for all its matches, as `full` does
 */
#include <stdio.h>
#include <stdlib.h>
#include <string.h>

#include "../../include/raqembu.h"

enum { CALLS = 24, MOST_SPOTS = 4096, MOST_MATCHES = 4096, MOST_DIRECTIONS = 65536, PAIRS = 1 << 18 };

/* A call, and the lists that it is lent. */
static double spots[RAQEMBU_SPOT_NUMBERS * MOST_SPOTS];
static size_t matches[2 * MOST_MATCHES];
static float directions[3 * MOST_DIRECTIONS];
static size_t spot_count, match_count, direction_count, limit, rounds, pairs;
static float radius;
static bool mirror;
static const double scale = 1.0 / 4096, cut = 1e-12;
static const float rotation[9] = {0, 1, 0, 0, 0, 1, 1, 0, 0};
static size_t numbers[16 * (MOST_SPOTS + MOST_MATCHES + MOST_DIRECTIONS)];
static double floats[16 * (MOST_SPOTS + MOST_MATCHES + MOST_DIRECTIONS)];
static double distances[2 * PAIRS];
static size_t indices[4 * PAIRS];
static size_t result[2 * MOST_SPOTS];

static uint64_t state;

/* From 0 on, below 1: xorshift, 53 bits. */
static double next(void) {
    state ^= state << 13;
    state ^= state >> 7;
    state ^= state << 17;
    return (double)(state >> 11) / 9007199254740992.0;
}

static size_t below(size_t n) { return (size_t)(next() * (double)n); }

/* The weight of a spot. By the call they are all 1; 2^-10 for outliers and spots without a direction; spread over their range; or all 3. */
static double weight(unsigned n, bool astray) {
    switch (n / 2 % 4) {
    case 0: return 1;
    case 1: return astray ? 1.0 / 1024 : 1;
    case 2: return (1 + next()) * (double)(1u << below(20)) / 1024;
    default: return 3;
    }
}

/* The camera looks along (1, 0, 0), and a direction (1, y, z) falls at (y, z) / scale. The spots stand at their directions, turned and moved a
 * little, with some noise and some outliers; spots without a direction and directions without a spot are strewn between. The weights are drawn
 * last, so that the rest of a call does not depend on them. */
static void make(unsigned n) {
    state = 0x9E3779B97F4A7C15u ^ (0x2545F4914F6CDD1Du * (n + 1));
    for (int i = 0; i < 8; i++) next();
    spot_count = n % 3 == 0 ? MOST_SPOTS : 1 + below(MOST_SPOTS);
    direction_count = n % 2 == 0 ? MOST_DIRECTIONS : 1 + below(MOST_DIRECTIONS);
    size_t common = spot_count < direction_count ? spot_count : direction_count;
    common = common * (1 + below(4)) / 4;
    match_count = n % 5 == 0 ? 0 : below(common + 1);
    limit = n % 4 == 1 ? below(spot_count + 1) : SIZE_MAX >> 32;
    rounds = n % 7 == 3 ? 64 : 1 + below(6);
    radius = n % 6 == 5 ? 1.0f / 64 : 1.0f / 1024;
    pairs = n % 8 == 7 ? 1 + below(2000) : PAIRS;
    mirror = n % 2 == 1;
    const double half = 0.25, turn = (next() - 0.5) / 512, dx = next() - 0.5, dy = next() - 0.5;
    for (size_t j = 0; j < direction_count; j++) {
        double y = (next() - 0.5) * half, z = (next() - 0.5) * half;
        directions[3 * j] = n % 9 == 8 && j % 50 == 49 ? -1.0f : 1.0f;
        directions[3 * j + 1] = (float)y;
        directions[3 * j + 2] = (float)z;
    }
    static bool astray[MOST_SPOTS];
    for (size_t i = 0; i < spot_count; i++) {
        astray[i] = i >= common;
        double x = (next() - 0.5) * half / scale, y = (next() - 0.5) * half / scale;
        if (i < common) {
            double a = (double)directions[3 * i + 1] / scale, b = (double)directions[3 * i + 2] / scale;
            x = a - turn * b + dx + (next() - 0.5);
            y = b + turn * a + dy + (next() - 0.5);
            if (below(20) == 0) x += 6 * (next() - 0.5), astray[i] = true;
        }
        spots[RAQEMBU_SPOT_NUMBERS * i] = x;
        spots[RAQEMBU_SPOT_NUMBERS * i + 1] = y;
    }
    for (size_t i = 0; i < match_count; i++) {
        matches[2 * i] = i;
        matches[2 * i + 1] = i;
    }
    for (size_t i = 0; i < spot_count; i++) spots[RAQEMBU_SPOT_NUMBERS * i + 2] = weight(n, astray[i]);
}

static uint64_t bits(double x) {
    uint64_t b;
    memcpy(&b, &x, 8);
    return x != x ? 0x7FF8000000000000u : b;
}

static void put(uint64_t n) {
    for (; n > 127; n >>= 7) putchar((int)(n & 127) | 128);
    putchar((int)n);
}

static void put_float(float x) {
    uint32_t b;
    memcpy(&b, &x, 4);
    put(b);
}

static void write_record(void) {
    put(spot_count), put(match_count), put(direction_count), put(mirror), put(bits(scale));
    put_float(radius), put(bits(cut)), put(limit), put(rounds);
    for (int i = 0; i < 9; i++) put_float(rotation[i]);
    for (size_t i = 0; i < RAQEMBU_SPOT_NUMBERS * spot_count; i++) put(bits(spots[i]));
    for (size_t i = 0; i < 2 * match_count; i++) put(matches[i]);
    for (size_t i = 0; i < 3 * direction_count; i++) put_float(directions[i]);
}

/* What the lists hold before a call must not matter; afterwards the working and candidate lists are zero. */
static size_t fill(size_t n) {
    memset(numbers, 0x5A, sizeof numbers), memset(floats, 0x5A, sizeof floats);
    memset(distances, 0x5A, sizeof distances), memset(indices, 0x5A, sizeof indices), memset(result, 0x5A, sizeof result);
    return 16 * n;
}

static bool zero(const void *list, size_t bytes) {
    const unsigned char *p = list;
    return bytes == 0 || (p[0] == 0 && memcmp(p, p + 1, bytes - 1) == 0);
}

static void write_floats(const char *name, const double *v, int n) {
    printf("%s", name);
    for (int i = 0; i < n; i++) printf(" %016llX", (unsigned long long)bits(v[i]));
    printf("\n");
}

/* All matches of an answer as one number. */
static uint64_t digest;

static void take(unsigned long long n) { digest = (digest ^ n) * 0x100000001B3u + 1; }

static void run(unsigned n) {
    size_t counts[5], places = fill(spot_count + match_count + direction_count);
    double values[18];
    size_t refusal = raqembu_wcs_refine(
        spots, RAQEMBU_SPOT_NUMBERS * spot_count, matches, 2 * match_count, directions, 3 * direction_count, rotation, 9,
        scale, mirror, radius, cut, limit, rounds, false, numbers, places, floats, places,
        distances, 2 * pairs, indices, 4 * pairs, result, 2 * MOST_SPOTS, counts, 5, values, 18);
    if (!zero(numbers, 8 * places) || !zero(floats, 8 * places) || !zero(distances, 16 * pairs) || !zero(indices, 32 * pairs))
        printf("call %u: a list is not zero\n", n);
    for (size_t i = 2 * counts[0]; i < 2 * MOST_SPOTS; i++)
        if (result[i] != 0x5A5A5A5A5A5A5A5Au) printf("call %u: place %zu of the result is written\n", n, i);
    if (refusal) {
        if (counts[4] != 0) printf("call %u: refused, and %zu comparisons\n", n, counts[4]);
        printf("no %zu\n", refusal);
        return;
    }
    printf("ok %zu %zu %zu %zu\n", counts[0], counts[1], counts[2], counts[3]);
    write_floats("pose", values, 4), write_floats("cd", values + 4, 4), write_floats("rms", values + 8, 1), write_floats("cov", values + 9, 9);
    printf("comparisons %zu\n", counts[4]);
    digest = 0;
    for (size_t i = 0; i < 2 * counts[0]; i++) take(result[i]);
    printf("matches %016llX\n", (unsigned long long)digest);
}

static void write_short(void) {
    char line[1024];
    unsigned long long a, b;
    bool accepted = false;
    while (fgets(line, sizeof line, stdin)) {
        if (sscanf(line, "m %llu %llu", &a, &b) == 2) {
            take(a), take(b);
            continue;
        }
        accepted = accepted || line[0] == 'o';
        fputs(line, stdout);
    }
    if (accepted) printf("matches %016llX\n", (unsigned long long)digest);
}

int main(int argc, char **argv) {
    if (argc == 3 && strcmp(argv[1], "record") == 0) {
        make((unsigned)atoi(argv[2]));
        write_record();
        return 0;
    }
    if (argc == 3 && strcmp(argv[1], "pairs") == 0) {
        make((unsigned)atoi(argv[2]));
        printf("%zu %zu\n", 2 * pairs, 4 * pairs);
        return 0;
    }
    if (argc == 2 && strcmp(argv[1], "short") == 0) {
        write_short();
        return 0;
    }
    for (unsigned n = 0; n < CALLS; n++) {
        make(n);
        run(n);
    }
    return 0;
}
