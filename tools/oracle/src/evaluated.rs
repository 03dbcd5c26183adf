//! The functions that `oracle eval` knows. All but the first group are the
//! reference's own; README.md lists arguments and results.

use reference::angles::{Angles, Cosine32};
use reference::comparisons;
use reference::order;
use reference::scan::scan;
use reference::solver::matching::{greedy_unique_matches, MatchScratch};
use reference::solver::solve::StarVectors;
use reference::solver::wcs_refine as w;
use reference::starcatalog::normalize_or_fallback;
use reference::stats::median_mad_sigma;
use reference::vector::{Matrix3, Vector3};

use crate::eval::{Out, Words};

pub fn call(name: &str, a: &mut Words) -> Option<Out> {
    arithmetic(name, a)
        .or_else(|| angles(name, a))
        .or_else(|| projections(name, a))
        .or_else(|| equations(name, a))
        .or_else(|| fit(name, a))
        .or_else(|| lists(name, a))
}

fn one(v: f64) -> Option<Out> {
    Some(Out::new().floats([v]))
}

fn maybe<const N: usize>(v: Option<[f64; N]>) -> Option<Out> {
    Some(v.map_or_else(Out::none, |v| Out::new().floats(v)))
}

/// Rust's own float methods.
fn arithmetic(name: &str, a: &mut Words) -> Option<Out> {
    match name {
        "sqrt64" => one(a.f64()?.sqrt()),
        "sqrt32" => Some(Out::new().floats32([a.f32()?.sqrt()])),
        "narrow" => Some(Out::new().floats32([a.f64()? as f32])),
        "widen" => one(a.f32()? as f64),
        "abs" => one(a.f64()?.abs()),
        "max" => one(a.f64()?.max(a.f64()?)),
        "min" => one(a.f64()?.min(a.f64()?)),
        "clamp" => one(a.f64()?.clamp(a.f64()?, a.f64()?)),
        "clamp32" => Some(Out::new().floats32([a.f32()?.clamp(a.f32()?, a.f32()?)])),
        "is_finite" => Some(Out::new().number(a.f64()?.is_finite() as usize)),
        "total_cmp" => {
            let ordering = order::total_cmp(&a.f64()?, &a.f64()?);
            Some(Out::new().number((ordering as i8 + 1) as usize))
        }
        _ => None,
    }
}

/// Document 01's functions (in oracle-host, the host's).
fn angles(name: &str, a: &mut Words) -> Option<Out> {
    match name {
        "sin" => one(a.f64()?.sin01()),
        "cos" => one(a.f64()?.cos01()),
        "atan" => one(a.f64()?.atan01()),
        "asin" => one(a.f64()?.asin01()),
        "atan2" => one(a.f64()?.atan2_01(a.f64()?)),
        "cos32" => Some(Out::new().floats32([a.f32()?.cos01()])),
        _ => None,
    }
}

fn rows32(m: &Matrix3<f32>) -> impl Iterator<Item = f32> + '_ {
    (0..9).map(|i| m[(i / 3, i % 3)])
}

fn projections(name: &str, a: &mut Words) -> Option<Out> {
    match name {
        "tan_project" => {
            let at = w::tan_project(a.f64()?, a.f64()?, a.f64()?, a.f64()?);
            maybe(at.map(|(xi, eta)| [xi, eta]))
        }
        "inverse_tan_project" => {
            let (ra, dec) = w::inverse_tan_project(a.f64()?, a.f64()?, a.f64()?, a.f64()?);
            Some(Out::new().floats([ra, dec]))
        }
        "cd_from_theta" => {
            let cd = w::cd_from_theta(a.f64()?, a.f64()?, a.number()? != 0);
            Some(Out::new().floats(cd.into_iter().flatten()))
        }
        "rotation_from_theta_crval" => {
            let rotation = w::rotation_from_theta_crval(a.f64()?, a.f64()?, a.f64()?);
            Some(Out::new().floats32(rows32(&rotation)))
        }
        "wcs_to_rotation" => {
            let cd = [[a.f64()?, a.f64()?], [a.f64()?, a.f64()?]];
            let (ra, dec, width) = (a.f64()?, a.f64()?, a.number()?);
            let (rotation, fov, flip) = w::wcs_to_rotation(&cd, ra, dec, u32::try_from(width).ok()?);
            Some(Out::new().floats32(rows32(&rotation)).floats32([fov]).number(flip as usize))
        }
        "camera_rows_f64" => {
            Some(Out::new().matrix(w::camera_rows_f64(a.f64()?, a.f64()?, a.f64()?)))
        }
        "tan_basis" => Some(Out::new().matrix(w::tan_basis(a.f64()?, a.f64()?))),
        "tan_project_vec" => {
            let at = w::tan_project_vec(&a.three32()?, &a.matrix()?, a.f64()?);
            maybe(at.map(|(xi, eta)| [xi, eta]))
        }
        "predict_tanplane" => {
            let (xi, eta) = w::predict_tanplane(a.f64()?, a.f64()?, a.f64()?, a.f64()?, a.f64()?);
            Some(Out::new().floats([xi, eta]))
        }
        _ => None,
    }
}

fn equations(name: &str, a: &mut Words) -> Option<Out> {
    match name {
        "solve_3x3" => maybe(w::solve_3x3(&a.matrix()?, &a.three()?)),
        "accumulate_normal_equations" => {
            let (mut ata, mut atb) = (a.matrix()?, a.three()?);
            let (px, py, weight) = (a.f64()?, a.f64()?, a.f64()?);
            let (cos_t, sin_t) = (a.f64()?, a.f64()?);
            let (ps, r_xi, r_eta) = (a.f64()?, a.f64()?, a.f64()?);
            w::accumulate_normal_equations(
                &mut ata, &mut atb, px, py, weight, cos_t, sin_t, ps, r_xi, r_eta,
            );
            Some(Out::new().matrix(ata).floats(atb))
        }
        "covariance_from_normal" => {
            Some(Out::new().matrix(w::covariance_from_normal(&a.matrix()?, a.f64()?, a.number()?)))
        }
        _ => None,
    }
}

/// What goes over the matches at a pose: theta, RA, Dec, scale, the plane cut,
/// then spots, matches and directions.
fn fit(name: &str, a: &mut Words) -> Option<Out> {
    if !["normal_matrix", "compute_residuals", "ls_fit_once"].contains(&name) {
        return None;
    }
    let (theta, ra, dec, ps) = (a.f64()?, a.f64()?, a.f64()?, a.f64()?);
    let cut = a.f64()?;
    let ((spots, weights), matches, directions) = (a.spots()?, a.pairs()?, a.directions()?);
    let vectors = StarVectors::with_observer_velocity(&directions, None);
    match name {
        "normal_matrix" => {
            let (ata, n) =
                w::normal_matrix(&weights, cut, &matches, vectors, &spots, theta, ra, dec, ps);
            Some(Out::new().matrix(ata).number(n))
        }
        "compute_residuals" => {
            let residuals = w::compute_residuals(cut, &matches, vectors, &spots, theta, ra, dec, ps);
            let out = Out::new().number(residuals.len());
            Some(residuals.into_iter().fold(out, |out, (i, r)| out.number(i).floats([r])))
        }
        _ => maybe(w::ls_fit_once(&weights, cut, &matches, vectors, &spots, theta, ra, dec, ps)),
    }
}

fn lists(name: &str, a: &mut Words) -> Option<Out> {
    match name {
        "residual_median_sigma" => {
            let (median, sigma) = w::residual_median_sigma(&a.residuals()?);
            Some(Out::new().floats([median, sigma]))
        }
        "median_mad_sigma" => {
            let (median, sigma) = median_mad_sigma(&mut a.list(Words::f64)?);
            Some(Out::new().floats([median, sigma]))
        }
        "mad_clip_matches" => {
            let kept = w::mad_clip_matches(&a.residuals()?, &a.pairs()?, a.f64()?, a.f64()?);
            Some(kept.map_or_else(Out::none, |kept| {
                Out::new().number(kept.len()).numbers(kept.into_iter().flat_map(|(s, d)| [s, d]))
            }))
        }
        "greedy_unique_matches" => {
            let (mut scratch, _) = matched(a)?;
            let matches = scratch.take_matches();
            let out = Out::new().number(matches.len());
            let squared = scratch.matched_d2().iter();
            Some(matches.iter().zip(squared).fold(out, |out, (m, d2)| {
                out.number(m.0).number(m.1).floats([*d2])
            }))
        }
        "comparisons" => Some(Out::new().numbers(matched(a)?.1)),
        "query" => {
            let (boresight, radius) = (Vector3::from_array(a.three32()?), a.f32()?);
            let listed = scan(boresight, radius, &a.directions()?);
            Some(Out::new().number(listed.len()).numbers(listed))
        }
        "normalize_or_fallback" => {
            let unit = normalize_or_fallback(Vector3::from_array(a.three32()?));
            Some(Out::new().floats32((0..3).map(|i| unit[i])))
        }
        _ => None,
    }
}

/// The matcher by itself: what it leaves, and the comparisons of its ordering,
/// as of a run of one round.
fn matched(a: &mut Words) -> Option<(MatchScratch, Vec<usize>)> {
    let (limit, radius_sq, points) = (a.number()?, a.f64()?, a.points()?);
    let predicted = a.list(|a| Some((a.number()?, a.f64()?, a.f64()?)))?;
    let mut scratch = MatchScratch::default();
    comparisons::begin();
    greedy_unique_matches(&points, limit, &predicted, radius_sq, &mut scratch);
    Some((scratch, comparisons::end().into_iter().map(|n| n as usize).collect()))
}
