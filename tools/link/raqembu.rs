//! A safe face of the linked library: pose refinement on lists that the caller lends. It needs only `core`.

use core::fmt;

const _: () = assert!(usize::BITS == 64, "the library's whole numbers have 64 bits");

// Each list is a pointer and a length, kept on one line.
#[rustfmt::skip]
#[link(name = "exports", kind = "static")]
extern "C" {
    fn raqembu_read_record(
        bytes: *const u8, bytes_len: usize,
        spots: *mut f64, spots_len: usize,
        matches: *mut usize, matches_len: usize,
        directions: *mut f32, directions_len: usize,
        choices: *mut usize, choices_len: usize,
        measures: *mut f64, measures_len: usize,
        rotation: *mut f32, rotation_len: usize,
    ) -> usize;

    fn raqembu_wcs_refine(
        spots: *const f64, spots_len: usize,
        matches: *const usize, matches_len: usize,
        directions: *const f32, directions_len: usize,
        rotation: *const f32, rotation_len: usize,
        scale: f64, mirror: bool, radius: f32, cut: f64, limit: usize, rounds: usize, scanning: bool,
        numbers: *mut usize, numbers_len: usize,
        floats: *mut f64, floats_len: usize,
        distances: *mut f64, distances_len: usize,
        indices: *mut usize, indices_len: usize,
        result: *mut usize, result_len: usize,
        counts: *mut usize, counts_len: usize,
        values: *mut f64, values_len: usize,
    ) -> usize;

    fn raqembu_greedy_unique_matches(
        points: *const f64, points_len: usize, max_points: usize,
        predicted: *const f64, predicted_len: usize, radius_sq: f64,
        distances: *mut f64, distances_len: usize,
        indices: *mut usize, indices_len: usize,
        work: *mut usize, work_len: usize,
        counts: *mut usize, counts_len: usize,
    ) -> usize;

    fn raqembu_greedy_unique_matches_by_scanning(
        points: *const f64, points_len: usize, max_points: usize,
        predicted: *const f64, predicted_len: usize, radius_sq: f64,
        work: *mut usize, work_len: usize,
        counts: *mut usize, counts_len: usize,
    ) -> usize;
}

/// The numbers of a spot in a list: x, y and weight.
pub const SPOT_NUMBERS: usize = 3;

/// Why a record or a call was turned away, by number; the header lists them.
#[derive(Clone, Copy, Debug, PartialEq, Eq)]
pub struct Refusal(pub usize);

impl fmt::Display for Refusal {
    fn fmt(&self, f: &mut fmt::Formatter<'_>) -> fmt::Result {
        write!(f, "no {}", self.0)
    }
}

impl core::error::Error for Refusal {}

/// 0 is no refusal.
fn accepted(number: usize) -> Result<(), Refusal> {
    if number == 0 { Ok(()) } else { Err(Refusal(number)) }
}

/// The numbers of an exposure beside its lists.
#[derive(Clone, Copy, Debug)]
pub struct Setting {
    /// by rows
    pub rotation: [f32; 9],
    /// radians per pixel
    pub scale: f64,
    pub mirror: bool,
    /// of matching, in radians
    pub radius: f32,
    /// a direction is dropped where its denominator in the projection is at most this
    pub cut: f64,
    /// only the first so many spots are matched
    pub limit: usize,
    pub rounds: usize,
    pub matcher: Matcher,
}

/// What a call's rounds match with. The matches are the same.
#[derive(Clone, Copy, Debug, PartialEq, Eq)]
pub enum Matcher {
    /// lists the candidate pairs, which have to fit into the lists lent for them: the quick one
    Listing,
    /// lists none, and goes over spots and predictions again for each match: for small panels
    Scanning,
}

/// How much of each list a record filled, and its other numbers.
#[derive(Clone, Copy, Debug)]
pub struct Header {
    pub spots: usize,
    pub matches: usize,
    pub directions: usize,
    pub setting: Setting,
}

/// Reads a record into the front of three lists: three places for a spot or a direction, two for a match. Refused, the lists are as they came. A
/// record names no matcher: it is the one that lists pairs, unless the caller changes it.
pub fn read_record(bytes: &[u8], spots: &mut [f64], matches: &mut [usize], directions: &mut [f32]) -> Result<Header, Refusal> {
    let mut choices = [0; 6];
    let mut measures = [0.0; 3];
    let mut rotation = [0.0; 9];
    // SAFETY: each pointer and length come from one slice or array that lives through the call. Those written to are borrowed for it alone, so no
    // two lists overlap. The library writes within the lengths, keeps no pointer, and every bit pattern it writes is a value of the type.
    #[rustfmt::skip]
    let number = unsafe {
        raqembu_read_record(
            bytes.as_ptr(), bytes.len(),
            spots.as_mut_ptr(), spots.len(),
            matches.as_mut_ptr(), matches.len(),
            directions.as_mut_ptr(), directions.len(),
            choices.as_mut_ptr(), choices.len(),
            measures.as_mut_ptr(), measures.len(),
            rotation.as_mut_ptr(), rotation.len(),
        )
    };
    accepted(number)?;
    let [spots, matches, directions, mirror, limit, rounds] = choices;
    let [scale, radius, cut] = measures;
    let matcher = Matcher::Listing;
    let setting = Setting { rotation, scale, mirror: mirror == 1, radius: radius as f32, cut, limit, rounds, matcher };
    Ok(Header { spots, matches, directions, setting })
}

/// The lists that a refinement works in. After an accepted call `result` starts with the matches, spot then direction of each, and the others are
/// zero. Refused with 5 to 11, 14 or 17 all are as they came; with 12 or 13 `result` is as it came and the others are zero.
pub struct Lists<'a> {
    pub numbers: &'a mut [usize],
    pub floats: &'a mut [f64],
    pub distances: &'a mut [f64],
    pub indices: &'a mut [usize],
    pub result: &'a mut [usize],
}

/// What a refinement answers. The matches themselves are the first `matches` pairs of the result list.
#[derive(Clone, Copy, Debug)]
pub struct Answer {
    pub matches: usize,
    pub rounds: usize,
    pub passes: usize,
    pub queries: usize,
    /// how often two candidate pairs were compared to put them in order, in the round that took the most
    pub comparisons: usize,
    /// theta, RA, Dec, scale
    pub pose: [f64; 4],
    /// by rows
    pub cd: [f64; 4],
    /// in radians
    pub rms: f64,
    /// of theta and the two offsets of the boresight, by rows
    pub cov: [f64; 9],
}

impl Lists<'_> {
    /// Refines a pose from spots (x, y, weight of each), starting matches (spot, direction of each) and directions (three components of each).
    pub fn refine(&mut self, spots: &[f64], matches: &[usize], directions: &[f32], setting: &Setting) -> Result<Answer, Refusal> {
        let mut counts = [0; 5];
        let mut values = [0.0; 18];
        // SAFETY: each pointer and length come from one slice or array that lives through the call. Those written to are borrowed for it alone, so
        // no two lists overlap. The library reads and writes within the lengths, keeps no pointer, and every bit pattern it writes is a value of
        // the type; it answers for any contents.
        #[rustfmt::skip]
        let number = unsafe {
            raqembu_wcs_refine(
                spots.as_ptr(), spots.len(),
                matches.as_ptr(), matches.len(),
                directions.as_ptr(), directions.len(),
                setting.rotation.as_ptr(), setting.rotation.len(),
                setting.scale, setting.mirror, setting.radius, setting.cut, setting.limit, setting.rounds,
                setting.matcher == Matcher::Scanning,
                self.numbers.as_mut_ptr(), self.numbers.len(),
                self.floats.as_mut_ptr(), self.floats.len(),
                self.distances.as_mut_ptr(), self.distances.len(),
                self.indices.as_mut_ptr(), self.indices.len(),
                self.result.as_mut_ptr(), self.result.len(),
                counts.as_mut_ptr(), counts.len(),
                values.as_mut_ptr(), values.len(),
            )
        };
        accepted(number)?;
        let [matches, rounds, passes, queries, comparisons] = counts;
        let mut answer = Answer { matches, rounds, passes, queries, comparisons, pose: [0.0; 4], cd: [0.0; 4], rms: values[8], cov: [0.0; 9] };
        answer.pose.copy_from_slice(&values[0..4]);
        answer.cd.copy_from_slice(&values[4..8]);
        answer.cov.copy_from_slice(&values[9..18]);
        Ok(answer)
    }
}

/// How many matches stand in a work list behind its marks, point then prediction, and how often two pairs were compared.
#[derive(Clone, Copy, Debug)]
pub struct Matching {
    pub matches: usize,
    pub comparisons: usize,
}

/// Matches points with predictions, x and y of each, nearest pairs first, each at most once. `work` has a place for the mark of each point within
/// `max_points` and of each prediction, and two for each match that there may be.
pub fn greedy_unique_matches(
    points: &[f64],
    max_points: usize,
    predicted: &[f64],
    radius_sq: f64,
    distances: &mut [f64],
    indices: &mut [usize],
    work: &mut [usize],
) -> Result<Matching, Refusal> {
    let mut counts = [0; 2];
    // SAFETY: as above.
    #[rustfmt::skip]
    let number = unsafe {
        raqembu_greedy_unique_matches(
            points.as_ptr(), points.len(), max_points,
            predicted.as_ptr(), predicted.len(), radius_sq,
            distances.as_mut_ptr(), distances.len(),
            indices.as_mut_ptr(), indices.len(),
            work.as_mut_ptr(), work.len(),
            counts.as_mut_ptr(), counts.len(),
        )
    };
    accepted(number)?;
    Ok(Matching { matches: counts[0], comparisons: counts[1] })
}

/// The same matches without candidate lists, for few points and predictions. It compares no pairs, and never finds too many.
pub fn greedy_unique_matches_by_scanning(
    points: &[f64],
    max_points: usize,
    predicted: &[f64],
    radius_sq: f64,
    work: &mut [usize],
) -> Result<Matching, Refusal> {
    let mut counts = [0; 2];
    // SAFETY: as above.
    #[rustfmt::skip]
    let number = unsafe {
        raqembu_greedy_unique_matches_by_scanning(
            points.as_ptr(), points.len(), max_points,
            predicted.as_ptr(), predicted.len(), radius_sq,
            work.as_mut_ptr(), work.len(),
            counts.as_mut_ptr(), counts.len(),
        )
    };
    accepted(number)?;
    Ok(Matching { matches: counts[0], comparisons: counts[1] })
}
