"""Every change that is made to the reference's text before it is built.

A substitution is (file, old text, new text, how often the old text occurs).
`build` stops when the number is another: then the reference is not the one
that these lines were written for, and they have to be read again.
"""

# The commit that the hashes below stand for, and the SHA-256 of each file's
# text up to its tests, blank ends left off. A difference is told, not refused:
# the counts of the substitutions decide.
COMMIT = "ssmichael1/tetra3rs 6f962ca13d"
HASHES = {
    "solver/wcs_refine.rs": "6bb3ef6f81afaf1293d5ffbbfc871d9723487f32e96a8e78fc9b8e126e4329a0",
    "solver/matching.rs": "2b135bb232873823f550109aabf752b81ef36b902ddc9593d108e67a4ba0f23d",
    "solver/solve.rs": "14c6bbaa8d9587f80a7a169d31ae53f198ce7651099d16657220a7425cf7a775",
    "stats.rs": "933534d32f6d8e29385295e850822f80f045262fcb6d955236f2634986dc4769",
    "starcatalog.rs": "a0b075020de9a051a5a7d6f4d20d9b49eea9e2644261f5c4045837284f47da0e",
}

# Built a second time under another name, with only the substitutions of that
# name: the statistics with the reference's own order of NaNs.
PLAIN_STATS = "plain_stats.rs"
COPIES = {PLAIN_STATS: "stats.rs"}

# Of solve.rs only this stretch is taken: StarVectors and what it stands on.
STAR_VECTORS = ("/// Speed of light in km/s.", "// ── Solve entry point ──")

REFINE = "solver/wcs_refine.rs"
MATCHING = "solver/matching.rs"
SOLVE = "solver/solve.rs"
STATS = "stats.rs"
CATALOG = "starcatalog.rs"

SUBSTITUTIONS = [
    # The vector type from outside becomes the own one, whose dot, norm and
    # normalising are those of document 01; the angle functions come with it.
    (REFINE, "use numeris::{Matrix3, Vector3};",
     "use crate::angles::Angles;\nuse crate::vector::{Matrix3, Vector3};", 1),
    (CATALOG, "use numeris::Vector3;",
     "use crate::angles::Cosine32;\nuse crate::vector::Vector3;", 1),

    # Document 01's angle functions in place of the host's (f64).
    (REFINE, ".sin()", ".sin01()", 18),
    (REFINE, ".cos()", ".cos01()", 20),
    (REFINE, ".atan()", ".atan01()", 2),
    (REFINE, ".asin()", ".asin01()", 2),
    (REFINE, ".atan2(", ".atan2_01(", 3),
    # The f32 cosine of the query. The cells' own layout keeps the host's
    # functions, so that cells and scan differ in nothing but the cells.
    (CATALOG, "let cos_radius = radius.cos();", "let cos_radius = radius.cos01();", 1),

    # Logging is left out. The macro of the same name in lib.rs takes the text
    # of each call for the coverage (which steps a run took) and no values.
    (REFINE, "use log::debug;\n", "", 1),
    (REFINE, "log::log_enabled!(log::Level::Debug)", "false", 1),

    # Serialising is left out.
    (CATALOG, "use serde::{Deserialize, Serialize};\n", "", 1),
    (CATALOG, "#[derive(Debug, Clone, Serialize, Deserialize)]", "#[derive(Debug, Clone)]", 1),

    # The query: scan.rs gives `query_impl` the meaning of document 01, and the
    # reference's own stays beside it under another name.
    (CATALOG, "fn query_impl(", "pub fn query_cells(", 1),
    (CATALOG, "fn normalize_or_fallback(", "pub fn normalize_or_fallback(", 1),

    # The plane cut is a number given with the call: an argument of the run and
    # of all that projects within it, first of those that go over the matches.
    # `tan_project`, which no run calls, and `CONVERGENCE_RAD` keep their 1e-12.
    (REFINE, "match_radius_rad: f32,\n", "match_radius_rad: f32,\n    cut: f64,\n", 1),
    (REFINE, "    matches: &[(usize, usize)],\n    star_vectors: StarVectors<'_>,\n",
     "    cut: f64,\n    matches: &[(usize, usize)],\n    star_vectors: StarVectors<'_>,\n", 3),
    (REFINE, "&current_matches,\n", "cut, &current_matches,\n", 6),
    (REFINE, "fn tan_project_vec(sv: &[f32; 3], basis: &TanBasis)",
     "fn tan_project_vec(sv: &[f32; 3], basis: &TanBasis, cut: f64)", 1),
    (REFINE, "tan_project_vec(&star_vectors.get(cat_idx), &basis)",
     "tan_project_vec(&star_vectors.get(cat_idx), &basis, cut)", 3),
    (REFINE, "let denom = dot(&basis[2]);\n    if denom <= 1e-12 {",
     "let denom = dot(&basis[2]);\n    if denom <= cut {", 1),
    (REFINE, "if z <= 1e-12 {", "if z <= cut {", 1),

    # The weights of the spots: a list beside the centroids, handed to the two
    # functions that sum over the matches, so that the matcher, the residuals and
    # the greatest distance, which take the centroids alone, cannot see a weight.
    (REFINE, "    centroids_px: &[(f64, f64)],\n    star_vectors: StarVectors<'_>,\n",
     "    centroids_px: &[(f64, f64)],\n    weights: &[f64],\n    star_vectors: StarVectors<'_>,\n", 1),
    (REFINE, "fn normal_matrix(\n", "fn normal_matrix(\n    weights: &[f64],\n", 1),
    (REFINE, "= normal_matrix(\n", "= normal_matrix(\n        weights,\n", 1),
    (REFINE, "fn ls_fit_once(\n", "fn ls_fit_once(\n    weights: &[f64],\n", 1),
    (REFINE, "= ls_fit_once(\n", "= ls_fit_once(\n            weights,\n", 2),
    (REFINE, "    px: f64,\n    py: f64,\n", "    px: f64,\n    py: f64,\n    weight: f64,\n", 1),
    (REFINE, "accumulate_normal_equations(&mut ata, &mut atb, px, py, ",
     "accumulate_normal_equations(&mut ata, &mut atb, px, py, weights[cent_idx], ", 1),
    (REFINE, "            px,\n            py,\n",
     "            px,\n            py,\n            weights[cent_idx],\n", 1),
    # The product: what a match adds to an entry is summed first, then multiplied.
    (REFINE, "ata[i][j] += jxi[i] * jxi[j] + jeta[i] * jeta[j];",
     "ata[i][j] += weight * (jxi[i] * jxi[j] + jeta[i] * jeta[j]);", 1),
    (REFINE, "atb[i] += jxi[i] * r_xi + jeta[i] * r_eta;",
     "atb[i] += weight * (jxi[i] * r_xi + jeta[i] * r_eta);", 1),

    # Refusal 12: after each update of theta, RA and Dec, in the fit passes and
    # in the refits of the final clips.
    (REFINE, "crval_dec = new_dec;",
     "crval_dec = new_dec; crate::hooks::moved(theta, crval_ra, crval_dec);", 2),
    # Refusal 13: as soon as the matcher holds more pairs than there is room for.
    (MATCHING, "candidates.push((d2, pt_idx, pred_idx));",
     "candidates.push((d2, pt_idx, pred_idx)); crate::hooks::collected(candidates.len());", 1),

    # The comparisons of the ordering: where all pairs are collected, they are
    # counted beside the reference's own sorting, which is left as it is. Like its
    # own counters, this is live with the feature `profile` alone.
    (MATCHING, "    candidates.sort_by(",
     "    #[cfg(feature = \"profile\")]\n    crate::comparisons::of_round(candidates);\n"
     "    candidates.sort_by(", 1),

    # All NaNs are one, and it stands after every number.
    (STATS, "select_nth_unstable_by(mid, f64::total_cmp)",
     "select_nth_unstable_by(mid, crate::order::total_cmp)", 2),

    # Single functions are evaluated and timed from outside their modules.
    (REFINE, "\nfn ", "\npub fn ", 13),
    (MATCHING, "pub(super) ", "pub ", 5),
    (STATS, "pub(crate) ", "pub ", 2),
    (PLAIN_STATS, "pub(crate) ", "pub ", 2),
    (SOLVE, "pub(crate) ", "pub ", 4),
]
