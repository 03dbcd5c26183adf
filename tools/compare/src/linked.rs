//! The refinement call of the static library, over Rust's lists.

use reference::record::Exposure;

extern "C" {
    // A list passes as a pointer and a length.
    fn raqembu_wcs_refine(
        spots: *const f64,
        spots_len: usize,
        matches: *const usize,
        matches_len: usize,
        directions: *const f32,
        directions_len: usize,
        rotation: *const f32,
        rotation_len: usize,
        scale: f64,
        mirror: bool,
        radius: f32,
        cut: f64,
        limit: usize,
        rounds: usize,
        scanning: bool,
        numbers: *mut usize,
        numbers_len: usize,
        floats: *mut f64,
        floats_len: usize,
        distances: *mut f64,
        distances_len: usize,
        indices: *mut usize,
        indices_len: usize,
        result: *mut usize,
        result_len: usize,
        counts: *mut usize,
        counts_len: usize,
        values: *mut f64,
        values_len: usize,
    ) -> usize;
}

/// The lists that a call may write, and its choice of the matcher.
#[derive(Clone)]
pub struct Lists {
    pub numbers: Vec<usize>,
    pub floats: Vec<f64>,
    pub distances: Vec<f64>,
    pub indices: Vec<usize>,
    pub result: Vec<usize>,
    pub counts: Vec<usize>,
    /// Whether the call chooses the matcher that lists no pairs.
    pub scanning: bool,
}

/// Refusal and the eighteen values.
pub struct Said {
    pub refusal: usize,
    pub values: [f64; 18],
}

/// One call. The lists are lent, and hold afterwards what the library left.
pub fn refine(e: &Exposure, l: &mut Lists) -> Said {
    let mut said = Said { refusal: 0, values: [7.0; 18] };
    // Safety: each list is whole and lives through the call, and those written to are ours alone.
    said.refusal = unsafe {
        raqembu_wcs_refine(
            e.spots.as_ptr(),
            e.spots.len(),
            e.matches.as_ptr(),
            e.matches.len(),
            e.directions.as_ptr(),
            e.directions.len(),
            e.rotation.as_ptr(),
            e.rotation.len(),
            e.scale,
            e.mirror,
            e.radius,
            e.cut,
            e.limit,
            e.rounds as usize,
            l.scanning,
            l.numbers.as_mut_ptr(),
            l.numbers.len(),
            l.floats.as_mut_ptr(),
            l.floats.len(),
            l.distances.as_mut_ptr(),
            l.distances.len(),
            l.indices.as_mut_ptr(),
            l.indices.len(),
            l.result.as_mut_ptr(),
            l.result.len(),
            l.counts.as_mut_ptr(),
            l.counts.len(),
            said.values.as_mut_ptr(),
            said.values.len(),
        )
    };
    said
}
