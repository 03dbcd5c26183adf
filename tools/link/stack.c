/* Measures the stack that a refinement call touches: the call runs in a thread whose stack is filled with a pattern beforehand, and afterwards the
 * deepest place without the pattern is looked for. An empty call is measured the same way and taken off. All lists are static. */
#define _XOPEN_SOURCE 700
#include <math.h>
#include <pthread.h>
#include <stdio.h>
#include <string.h>

#include "raqembu.h"

enum { PATTERN = 0xA5, STACK = 1 << 20, SPOTS = 4096, DIRECTIONS = 65536, WORKING = 16 * (2 * SPOTS + DIRECTIONS), PAIRS = 1 << 20 };

#define LENGTH(list) (sizeof(list) / sizeof((list)[0]))
#define LENT(list) (list), LENGTH(list)

static _Alignas(4096) unsigned char stack[STACK];
static double spots[RAQEMBU_SPOT_NUMBERS * SPOTS];
static size_t matches[2 * SPOTS];
static float directions[3 * DIRECTIONS];
static const float rotation[9] = {0, 1, 0, 0, 0, 1, 1, 0, 0};
static size_t numbers[WORKING];
static double floats[WORKING];
static double distances[2 * PAIRS];
static size_t indices[4 * PAIRS];
static size_t result[2 * SPOTS];
static size_t counts[5];
static double values[18];

static size_t spot_count, direction_count, answer, touched;
static void (*volatile call)(void);

static void empty(void) {}

static void refine(void)
{
    answer = raqembu_wcs_refine(spots, RAQEMBU_SPOT_NUMBERS * spot_count, matches, 2 * spot_count, directions, 3 * direction_count, LENT(rotation),
                                0x1p-12, false, 0x1p-10f, 1e-12, SIZE_MAX, 8, false, LENT(numbers), LENT(floats), LENT(distances), LENT(indices),
                                LENT(result), LENT(counts), LENT(values));
}

/* The places touched are counted before the thread ends, so that its ending takes no part. */
static void *measured(void *unused)
{
    call();
    size_t clean = 0;
    while (((volatile unsigned char *)stack)[clean] == PATTERN) {
        clean++;
    }
    touched = sizeof stack - clean;
    return unused;
}

static size_t touched_by(void (*function)(void))
{
    pthread_attr_t with_stack;
    pthread_t thread;
    memset(stack, PATTERN, sizeof stack);
    call = function;
    if (pthread_attr_init(&with_stack) != 0 || pthread_attr_setstack(&with_stack, stack, sizeof stack) != 0
        || pthread_create(&thread, &with_stack, measured, NULL) != 0 || pthread_join(thread, NULL) != 0) {
        perror("thread");
        return 0;
    }
    pthread_attr_destroy(&with_stack);
    return touched;
}

/* Directions on a square grid about the boresight; the spots lie where some of them are seen, a little off, and start matched with them. */
static void expose(size_t spots_wanted, size_t side)
{
    spot_count = spots_wanted;
    direction_count = side * side;
    size_t step = direction_count / spot_count;
    for (size_t i = 0; i < direction_count; i++) {
        double u = ((double)(i % side) + 0.5) / (double)side - 0.5, v = ((double)(i / side) + 0.5) / (double)side - 0.5;
        double norm = sqrt(1 + u * u + v * v);
        directions[3 * i] = (float)(1 / norm);
        directions[3 * i + 1] = (float)(u / norm);
        directions[3 * i + 2] = (float)(v / norm);
        size_t spot = i / step;
        if (i % step == 0 && spot < spot_count) {
            spots[RAQEMBU_SPOT_NUMBERS * spot] = u * 0x1p12 + 0.25 + (double)(i % 7) / 16;
            spots[RAQEMBU_SPOT_NUMBERS * spot + 1] = v * 0x1p12 - 0.25 + (double)(i % 5) / 16;
            spots[RAQEMBU_SPOT_NUMBERS * spot + 2] = 1;
            matches[2 * spot] = spot;
            matches[2 * spot + 1] = i;
        }
    }
}

static void tell(void)
{
    size_t without = touched_by(empty), with = touched_by(refine);
    printf("%zu spots, %zu matches, %zu directions: %zu bytes; answer %zu, matches %zu, rounds %zu, passes %zu, queries %zu, comparisons %zu\n",
           spot_count, spot_count, direction_count, with - without, answer, counts[0], counts[1], counts[2], counts[3], counts[4]);
}

int main(void)
{
    expose(64, 16);
    tell();
    expose(SPOTS, 256);
    tell();
    return 0;
}
