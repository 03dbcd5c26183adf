/* Reads an exposure record on standard input, refines its pose with the linked library and prints the answer.
 *
 * All lists are static and of the program's size: 64 spots, 64 matches, 256 directions. */
#include <inttypes.h>
#include <math.h>
#include <stdio.h>
#include <string.h>

#include "raqembu.h"

_Static_assert(RAQEMBU_VERSION == 5, "written for version 5 of raqembu.h");

_Static_assert(sizeof(size_t) == 8, "size_t has 64 bits");

enum { SPOTS = 64, MATCHES = 64, DIRECTIONS = 256, RECORD = 65536, WORKING = 16 * (SPOTS + MATCHES + DIRECTIONS) };

#define LENGTH(list) (sizeof(list) / sizeof((list)[0]))
#define LENT(list) (list), LENGTH(list)

/* One byte more than a record may have, so that a longer one is seen as such. */
static uint8_t record[RECORD + 1];
static double spots[RAQEMBU_SPOT_NUMBERS * SPOTS];
static size_t matches[2 * MATCHES];
static float directions[3 * DIRECTIONS];
static size_t choices[6];
static double measures[3];
static float rotation[9];

static size_t numbers[WORKING];
static double floats[WORKING];
static double distances[4096];
static size_t indices[8192];
static size_t result[2 * MATCHES];
static size_t counts[5];
static double values[18];

/* A line of floats as their bits; every NaN is printed as the same one. */
static void print_floats(const char *name, const double *list, size_t length)
{
    printf("%s", name);
    for (size_t i = 0; i < length; i++) {
        uint64_t bits = UINT64_C(0x7FF8000000000000);
        if (!isnan(list[i])) {
            memcpy(&bits, &list[i], sizeof bits);
        }
        printf(" %016" PRIX64, bits);
    }
    printf("\n");
}

/* With the word `scanning` the matcher that lists no pairs is chosen, and lent no place for any. */
int main(int argc, char **argv)
{
    bool scanning = argc > 1 && strcmp(argv[1], "scanning") == 0;
    size_t pairs = scanning ? 0 : LENGTH(distances) / 2;
    size_t length = fread(record, 1, sizeof record, stdin);
    size_t refusal = raqembu_read_record(record, length, LENT(spots), LENT(matches), LENT(directions), LENT(choices), LENT(measures),
                                         LENT(rotation));
    if (refusal == 0) {
        refusal = raqembu_wcs_refine(spots, RAQEMBU_SPOT_NUMBERS * choices[0], matches, 2 * choices[1], directions, 3 * choices[2], LENT(rotation),
                                     measures[0], choices[3] == 1, (float)measures[1], measures[2], choices[4], choices[5], scanning, LENT(numbers),
                                     LENT(floats), distances, 2 * pairs, indices, 4 * pairs, LENT(result), LENT(counts), LENT(values));
    }
    if (refusal != 0) {
        printf("no %zu\n", refusal);
        return 0;
    }
    printf("ok %zu %zu %zu %zu\n", counts[0], counts[1], counts[2], counts[3]);
    print_floats("pose", values, 4);
    print_floats("cd", values + 4, 4);
    print_floats("rms", values + 8, 1);
    print_floats("cov", values + 9, 9);
    for (size_t i = 0; i < counts[0]; i++) {
        printf("m %zu %zu\n", result[2 * i], result[2 * i + 1]);
    }
    return 0;
}
