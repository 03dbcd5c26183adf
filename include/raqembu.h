/* Raqembu: pose refinement for flat-panel X-ray detectors.
 *
 * Every list passes as a pointer to its first place and the number of its places. Lists do not overlap, and each has at most PTRDIFF_MAX bytes.
 * Nothing is allocated, nothing is kept between calls, no function has global state, and each answers after finitely many steps whatever the
 * lists hold. size_t has 64 bits. Every NaN that is answered or written has the bits 7FF8000000000000, and 7FC00000 in a float.
 *
 * Lists are of two kinds. Those that a call reads or works in keep what they held where it is refused, but for 12 and 13, as said below. Those
 * that take the answer (counts, values, choices, measures, rotation of a record, out) are written in the places named by every call, also by one
 * that is refused: they are zero then. Shorter ones take as much as they have places, and places after those named are never written.
 *
 * A refinement call is refused with one of these numbers, the first that applies. The checks are made in the order of this list, in which 14
 * stands after 8, and 17 after 9:
 *    5  a flat list does not divide evenly: spots by 3, matches by 2, directions by 3
 *    6  more than 4,096 spots, 4,096 matches, 65,536 directions or 64 rounds
 *    7  the pixel scale is not within 2^-30 to 1 radian per pixel
 *    8  the match radius is not within 2^-30 to 1 radian
 *   14  the plane cut is not within 1e-12 to 0.5; NaN, -0 and everything below 1e-12 are outside
 *    9  a spot coordinate is not within +-2^20, or a direction component or rotation entry not within +-2; NaN and infinities are outside
 *   17  a spot's weight is not within 2^-10 to 2^10; NaN, infinities, zeros and everything below 2^-10 are outside
 *   10  a starting match names a spot or direction that is not in its list
 *   11  a working list is shorter than 16 x (spots + matches + directions), or the result list than twice the larger of the number of
 *       matches and min(spots, matching limit); or a record counts more than the lists it is read into hold
 *   12  after an update of theta, RA or Dec, one is not finite or exceeds 1,024 in absolute value
 *   13  a round finds more pairs within its radius than the candidate lists hold: half the places of `distances` or a quarter of those of
 *       `indices`, whichever is less. A call that chooses the scanning matcher never gives it
 * and a record with one of these, before them:
 *    1  it is longer than 65,536 bytes
 *    2  it ends inside a number or before its last number
 *    3  a number is not in its shortest form or exceeds its field
 *    4  bytes follow the last number
 */
#ifndef RAQEMBU_H
#define RAQEMBU_H

#include <stdbool.h>
#include <stddef.h>
#include <stdint.h>

/* Goes up by one wherever a function's arguments, the places of a list or the record change. 2: the plane cut is an argument of
 * raqembu_wcs_refine, a number of the record and a place of measures. 3: a spot has a weight, its third number in lists and in the record.
 * 4: counts has a place more, for the comparisons, in raqembu_wcs_refine and in raqembu_greedy_unique_matches. 5: the choice of the matcher is an
 * argument of raqembu_wcs_refine, after rounds. */
#define RAQEMBU_VERSION 5

/* The numbers of a spot in a list: x, y and weight. */
#define RAQEMBU_SPOT_NUMBERS 3

#ifdef __cplusplus
extern "C" {
#endif

/* Refines a pose. Returns 0, or the number of the refusal.
 *
 * spots: x, y, weight of each. The weight, from 2^-10 to 2^10, multiplies what a match of the spot adds to the equations of the fit and to the
 * covariance's matrix; matching, residuals, clip and error do not look at it. With all weights 1 the answer is that of version 2.
 * matches: spot, direction of each starting match. directions: three components of each. rotation: nine entries, by rows.
 * scale: radians per pixel. mirror: the image is mirrored. radius: of matching, in radians. cut: the plane cut. A direction is dropped
 * everywhere in the run where its denominator, its scalar product with the boresight, is at most this; 1e-12, which version 1 had built in, drops
 * those on or behind the projection plane, 0.5 those of length 1 that lie 60 degrees or more off the boresight.
 * limit: only the first so many spots are matched. scanning: false for the matcher that lists the candidate pairs, true for the one that scans.
 * numbers, floats: working lists. distances, indices: room for candidate pairs, of which the scanning matcher needs none: their lengths may be 0.
 * result: takes the matches, spot then direction.
 * counts: 5 places for matches, rounds, fit passes, queries, comparisons. values: 18 places for theta, RA, Dec, scale; the matrix by rows; the error
 * (rms, in radians); the covariance of theta and the two offsets of the boresight, by rows.
 *
 * Comparisons are a figure for crowded frames: how often two candidate pairs were compared to put them in order, in the round that took the most. A
 * round has n pairs, each a spot and a direction predicted within the radius of it. They first stand by spot, then prediction, each as a run of its
 * own. Neighbouring runs are merged two by two from the left: those of 1 pair, then those of 2, then of 4, and so on until one run is left. Two runs
 * are merged by comparing the first pair left of each, by distance, then spot, then prediction, and taking the one that goes before, until one run is
 * used up. Each such comparison counts 1; what is left of the other run counts nothing, nor does a run without neighbour. A round of n pairs takes at
 * most n x b comparisons, b being the least whole number with 2^b at least n, and n is at most the number of pairs that the candidate lists hold,
 * since by listing a round with more is refused with 13. So the room that is lent is a ceiling for every exposure:
 *    room for 2,048 pairs, as the program refine has          b 11    at most         22,528 comparisons in a round
 *    room for 65,536 pairs                                    b 16    at most      1,048,576
 *    room for 268,435,456 pairs, as many as there can be      b 28    at most  7,516,192,768
 * The figure is 0 where the call is refused, where no round ran, where no pair was found, and by scanning.
 *
 * The matchers give the same matches in the same sequence, and so the same answer but for the comparisons, of which scanning reports 0. The listing
 * one writes down every pair within the radius, so that it needs room for them and is refused with 13 where it has too little; it is the quick
 * one. The scanning one is for panels without that memory: it goes over the spots and the predictions (the directions that a round predicts on the
 * panel) again for each match, so that a round takes at most
 *    (matches + 1) x free spots x free predictions
 * distances, of 3 to 5 nanoseconds each on a 2.5 GHz server processor, the bookkeeping included. A spot or prediction is free until it is matched,
 * or has nothing free within the radius any more. On that processor, with 64 spots and 256 predictions, a round's matching took 0.07 ms with 17
 * matches, 0.6 ms with 51, and 1.9 ms where every spot had some thirty predictions in reach and all were matched; in that last case 16 ms with 128
 * and 512, and 150 ms with 256 and 1,024. At the full limits it could be 5 x 10^11 distances, more than half an hour. Choose it up to 128 spots and
 * 512 directions, and not beyond: lend the listing one its room there. Either way distances and indices, where they are lent, are zero afterwards.
 *
 * Refused with 5 to 11, 14 or 17, numbers, floats, distances, indices and result are as they came. Refused with 12 or 13, result is as it came and
 * the other four are zero from first place to last. Accepted, result starts with the matches and is unchanged after them, and the other four are
 * zero. spots, matches, directions and rotation are only read. counts and values take the answer: refused, they are zero. */
size_t raqembu_wcs_refine(
    const double *spots, size_t spots_len,
    const size_t *matches, size_t matches_len,
    const float *directions, size_t directions_len,
    const float *rotation, size_t rotation_len,
    double scale, bool mirror, float radius, double cut, size_t limit, size_t rounds, bool scanning,
    size_t *numbers, size_t numbers_len,
    double *floats, size_t floats_len,
    double *distances, size_t distances_len,
    size_t *indices, size_t indices_len,
    size_t *result, size_t result_len,
    size_t *counts, size_t counts_len,
    double *values, size_t values_len);

/* Reads an exposure record into lists. Returns 0, or the number of the refusal: 1 to 4, or 11 where a list is too short for the record.
 *
 * bytes: the record. spots, matches, directions: take what the record holds, in the form that raqembu_wcs_refine takes, from their first place on.
 * choices: 6 places for the counts of spots, matches and directions, the mirror as 1 or 0, the matching limit, the rounds. measures: 3 places for
 * the scale, the radius, which as a float is the same number, and the plane cut. rotation: 9 places for the entries, by rows.
 *
 * Refused, spots, matches and directions are as they came. Accepted, they start with what is read and are unchanged past it. choices, measures
 * and rotation take the answer: refused, they are zero. The values themselves are not looked at here: 5 to 10, 14 and 17 are for the refinement
 * call. */
size_t raqembu_read_record(
    const uint8_t *bytes, size_t bytes_len,
    double *spots, size_t spots_len,
    size_t *matches, size_t matches_len,
    float *directions, size_t directions_len,
    size_t *choices, size_t choices_len,
    double *measures, size_t measures_len,
    float *rotation, size_t rotation_len);

/* Matches points with predictions, nearest pairs first, each at most once. Both are x, y of each: a point is a spot without its weight, so a list
 * of spots as raqembu_wcs_refine takes it is none of points. Returns 0, or the number of the refusal: 13 where there are more pairs than the
 * candidate lists hold, 11 where `work` is too short for one mark for each point within max_points and each prediction, and two places for each
 * match that there may be.
 *
 * Accepted, the matches stand in work after its marks, which are zero, point then prediction's place; the used places of distances and indices
 * are zero. Refused with 13, work is as it came and the used places of the other two are zero; with 11, all three are as they came. counts takes
 * the answer, 2 places for the number of matches and that of comparisons, which are those of one round of raqembu_wcs_refine: refused, they are
 * zero. */
size_t raqembu_greedy_unique_matches(
    const double *points, size_t points_len, size_t max_points,
    const double *predicted, size_t predicted_len, double radius_sq,
    double *distances, size_t distances_len,
    size_t *indices, size_t indices_len,
    size_t *work, size_t work_len,
    size_t *counts, size_t counts_len);

/* The same matches in the same sequence without candidate lists, found by scanning: at most (matches + 1) x free points x free predictions
 * distances, which see above. Returns 0, or 11 where `work` is too short for one mark for each point within max_points and each prediction, and two
 * places for each match that there may be; never 13.
 *
 * Accepted, the matches stand in work after its marks, which are zero, as above. Refused, work is as it came. counts takes the answer, 2 places for
 * the number of matches and that of comparisons, which is 0: refused, both are zero. */
size_t raqembu_greedy_unique_matches_by_scanning(
    const double *points, size_t points_len, size_t max_points,
    const double *predicted, size_t predicted_len, double radius_sq,
    size_t *work, size_t work_len,
    size_t *counts, size_t counts_len);

/* Median and 1.4826 times the median absolute deviation, into the first two places of `out`. vals is left zero. */
void raqembu_median_mad_sigma(double *vals, size_t vals_len, double *out, size_t out_len);

/* Square root and narrowing to nearest, ties to even, as IEEE 754 has them. A NaN, and the root of a number below zero, gives the NaN above. */
double raqembu_sqrt64(double x);
float raqembu_sqrt32(float x);
float raqembu_narrow(double x);
double raqembu_widen(float x);

#ifdef __cplusplus
}
#endif

#endif
