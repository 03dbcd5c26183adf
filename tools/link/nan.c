/* Holds the bits of every NaN that the linked library answers or writes to 7FF8000000000000, and 7FC00000 in a float: of roots, narrowing and
 * widening, of the median and sigma, and of a record whose floats are NaN patterns. */
#include <inttypes.h>
#include <math.h>
#include <stdio.h>
#include <string.h>

#include "raqembu.h"

#define LENGTH(list) (sizeof(list) / sizeof((list)[0]))
#define LENT(list) (list), LENGTH(list)

/* Quiet and signalling, of both signs, with payloads. */
static const uint64_t wide[] = {
    UINT64_C(0x7FF8000000000000), UINT64_C(0xFFF8000000000000), UINT64_C(0x7FF8000000000001), UINT64_C(0xFFFFFFFFFFFFFFFF),
    UINT64_C(0x7FF0000000000001), UINT64_C(0xFFF0000000000001), UINT64_C(0x7FF7FFFFFFFFFFFF), UINT64_C(0xFFF4000000000000),
};
static const uint32_t narrow[] = {
    0x7FC00000, 0xFFC00000, 0x7FC00001, 0xFFFFFFFF, 0x7F800001, 0xFF800001, 0x7FBFFFFF, 0xFFA00000,
};

static unsigned held, other;

static void hold(const char *what, uint64_t from, uint64_t bits, uint64_t expected)
{
    if (bits == expected) {
        held++;
    } else {
        printf("%s of %" PRIX64 ": %" PRIX64 ", not %" PRIX64 "\n", what, from, bits, expected);
        other++;
    }
}

static void hold_double(const char *what, uint64_t from, double x)
{
    uint64_t bits;
    memcpy(&bits, &x, sizeof bits);
    hold(what, from, bits, UINT64_C(0x7FF8000000000000));
}

static void hold_float(const char *what, uint64_t from, float x)
{
    uint32_t bits;
    memcpy(&bits, &x, sizeof bits);
    hold(what, from, bits, 0x7FC00000);
}

static double double_of(uint64_t bits)
{
    double x;
    memcpy(&x, &bits, sizeof x);
    return x;
}

static float float_of(uint32_t bits)
{
    float x;
    memcpy(&x, &bits, sizeof x);
    return x;
}

static void numbers(void)
{
    for (size_t i = 0; i < LENGTH(wide); i++) {
        hold_double("sqrt64", wide[i], raqembu_sqrt64(double_of(wide[i])));
        hold_float("narrow", wide[i], raqembu_narrow(double_of(wide[i])));
    }
    for (size_t i = 0; i < LENGTH(narrow); i++) {
        hold_float("sqrt32", narrow[i], raqembu_sqrt32(float_of(narrow[i])));
        hold_double("widen", narrow[i], raqembu_widen(float_of(narrow[i])));
    }
    hold_double("sqrt64 of -1", 0, raqembu_sqrt64(-1.0));
    hold_float("sqrt32 of -1", 0, raqembu_sqrt32(-1.0f));
}

static void median(void)
{
    double out[2] = {0.0, 0.0};
    double values[3] = {INFINITY, INFINITY, 1.0};
    raqembu_median_mad_sigma(LENT(values), LENT(out));
    hold_double("sigma of inf, inf, 1", 0, out[1]);
    for (size_t i = 0; i < LENGTH(wide); i++) {
        double one[1] = {double_of(wide[i])};
        raqembu_median_mad_sigma(LENT(one), LENT(out));
        hold_double("median", wide[i], out[0]);
        hold_double("sigma", wide[i], out[1]);
    }
}

static uint8_t record[1024];
static size_t length;

/* A number in groups of seven bits, lowest first. */
static void put(uint64_t n)
{
    for (; n > 127; n /= 128) {
        record[length++] = (uint8_t)(n % 128 + 128);
    }
    record[length++] = (uint8_t)n;
}

/* One spot and one direction; every float of the record is the pattern. */
static void read_record(uint64_t w, uint32_t n)
{
    double spots[RAQEMBU_SPOT_NUMBERS], measures[3];
    size_t matches[1], choices[6];
    float directions[3], rotation[9];
    const uint64_t start[] = {1, 0, 1, 0, w, n, w, 1, 1};
    length = 0;
    for (size_t i = 0; i < LENGTH(start); i++) {
        put(start[i]);
    }
    for (size_t i = 0; i < LENGTH(rotation); i++) {
        put(n);
    }
    for (size_t i = 0; i < LENGTH(spots); i++) {
        put(w);
    }
    for (size_t i = 0; i < LENGTH(directions); i++) {
        put(n);
    }
    hold("the record's refusal, floats", w, raqembu_read_record(record, length, LENT(spots), LENT(matches), LENT(directions), LENT(choices),
                                                                LENT(measures), LENT(rotation)), 0);
    hold_double("scale", w, measures[0]);
    hold_double("radius", n, measures[1]);
    hold_double("cut", w, measures[2]);
    for (size_t i = 0; i < LENGTH(spots); i++) {
        hold_double("spot", w, spots[i]);
    }
    for (size_t i = 0; i < LENGTH(directions); i++) {
        hold_float("direction", n, directions[i]);
    }
    for (size_t i = 0; i < LENGTH(rotation); i++) {
        hold_float("rotation", n, rotation[i]);
    }
}

int main(void)
{
    numbers();
    median();
    for (size_t i = 0; i < LENGTH(wide); i++) {
        read_record(wide[i], narrow[i]);
    }
    printf("NaN: %u as promised, %u not\n", held, other);
    return other != 0;
}
