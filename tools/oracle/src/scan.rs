//! Document 01's cone query: a scan in place of the catalogue's cells. The
//! substitutions have renamed the reference's `query_impl` to `query_cells`.

use std::cell::Cell;
use std::f32::consts::PI;

use crate::angles::Cosine32;
use crate::starcatalog::{normalize_or_fallback, StarCatalog};
use crate::vector::Vector3;

thread_local! {
    static BY_CELLS: Cell<bool> = const { Cell::new(false) };
}

/// Whether queries go to the reference's own cells.
pub fn use_cells(yes: bool) {
    BY_CELLS.set(yes);
}

/// Ascending, every direction whose f32 dot product with the normalised
/// boresight is at least the cosine of the radius.
pub fn scan(boresight: Vector3<f32>, radius: f32, directions: &[[f32; 3]]) -> Vec<usize> {
    let least = radius.clamp(0.0, PI).cos01();
    let boresight = normalize_or_fallback(boresight);
    let listed = |d: &[f32; 3]| boresight.dot(&Vector3::from_array(*d)) >= least;
    (0..directions.len()).filter(|&i| listed(&directions[i])).collect()
}

impl StarCatalog {
    pub(crate) fn query_impl(
        &self,
        boresight: Vector3<f32>,
        radius: f32,
        cache: Option<&[[f32; 3]]>,
    ) -> Vec<usize> {
        match cache {
            Some(directions) if !BY_CELLS.get() => scan(boresight, radius, directions),
            _ => self.query_cells(boresight, radius, cache),
        }
    }
}
