//! Exposures as a camera would take them: directions seen from an attitude,
//! spots where they project, noise, strays, and a start that is a little off.

use crate::cuts;
use crate::exposure::Exposure;
use crate::rng::Rng;

/// What `refine` holds.
pub const SPOTS: usize = 64;
pub const MATCHES: usize = 64;
pub const DIRECTIONS: usize = 256;

pub type Rows = [[f64; 3]; 3];

pub struct Plan {
    pub attitude: Rows,
    /// Radians per pixel.
    pub scale: f64,
    /// The field's middle and half its width, and the match radius, in pixels.
    pub middle: [f64; 2],
    pub half: f64,
    pub radius: f64,
    /// The width along x of where spots lie, and of where directions without a spot do, as a part of the height: 0 puts all on one x.
    pub breadth: [f64; 2],
    /// Directions with a spot, spots without a direction, directions in the
    /// field without a spot, and directions anywhere.
    pub pairs: usize,
    pub strays: usize,
    pub dark: usize,
    pub elsewhere: usize,
    /// Deviation of a spot in pixels; how many spots are far off, and how far.
    pub noise: f64,
    pub outliers: usize,
    pub far_off: f64,
    /// Starting matches, and how many of them are wrong.
    pub matches: usize,
    pub wrong: usize,
    /// The start's tilt and roll against the attitude, in radians.
    pub tilt: f64,
    pub roll: f64,
    pub limit: u32,
    pub rounds: u32,
}

impl Plan {
    /// A plan with ordinary values; kinds change what they are about.
    pub fn ordinary(r: &mut Rng) -> Plan {
        let scale = r.size(-18, -9);
        let half = r.between(100.0, 1500.0);
        let pairs = r.whole(4, 48);
        let noise = r.pick(&[0.0, 0.05, 0.3, 1.0]);
        let radius = r.between(3.0, 40.0);
        Plan {
            attitude: attitude(r),
            scale,
            middle: [0.0, 0.0],
            half,
            radius,
            breadth: [1.0; 2],
            pairs,
            strays: r.whole(0, SPOTS - pairs),
            dark: r.whole(0, 60),
            elsewhere: r.whole(0, 100),
            noise,
            outliers: r.whole(0, pairs / 4),
            far_off: r.between(1.0, 30.0),
            matches: r.whole(0, pairs),
            wrong: r.whole(0, 2),
            tilt: scale * radius * r.between(0.0, 2.0),
            roll: radius / half * r.between(-1.0, 1.0),
            limit: if r.once_in(3) { r.whole(0, SPOTS) as u32 } else { r.pick(&[64, 1000, u32::MAX]) },
            rounds: if r.once_in(8) { r.whole(0, 64) as u32 } else { r.whole(1, 12) as u32 },
        }
    }

    pub fn take(&self, r: &mut Rng) -> Exposure {
        self.taken(r).0
    }

    /// The exposure without weights, and which of its spots do not stand at a
    /// direction: the outliers and the strays.
    pub fn taken(&self, r: &mut Rng) -> (Exposure, Vec<usize>) {
        let (mut spots, mut directions) = self.strewn(r);
        // Spots and directions in any order, so that indices mean something.
        let spot_at = shuffled(r, &mut spots);
        let direction_at = shuffled(r, &mut directions);
        let mut matches: Vec<[u32; 2]> =
            (0..self.pairs).map(|i| [spot_at[i], direction_at[i]]).collect();
        shuffled(r, &mut matches);
        matches.truncate(self.matches);
        for m in matches.iter_mut().take(self.wrong) {
            m[1] = r.below(directions.len() as u64) as u32;
        }
        let start = turned(&self.attitude, self.tilt * r.normal(), self.tilt * r.normal(), self.roll);
        let astray = (0..self.outliers.min(self.pairs)).chain(self.pairs..spots.len());
        let astray = astray.map(|i| spot_at[i] as usize).collect();
        let exposure = Exposure {
            mirror: r.once_in(2),
            scale: self.scale,
            radius: (self.scale * self.radius).min(1.0) as f32,
            cut: cuts::LEAST,
            limit: self.limit,
            rounds: self.rounds,
            rotation: narrowed(&start),
            spots,
            weights: Vec::new(),
            matches,
            directions,
        };
        (exposure, astray)
    }

    /// Spots and directions: those of a pair first, at the same place of both.
    fn strewn(&self, r: &mut Rng) -> (Vec<[f64; 2]>, Vec<[f32; 3]>) {
        let mut spots = Vec::new();
        let mut directions = Vec::new();
        for i in 0..self.pairs {
            let [x, y] = self.place(r, self.breadth[0]);
            directions.push(direction(&self.attitude, self.scale * x, self.scale * y));
            let off = if i < self.outliers { self.far_off } else { self.noise };
            spots.push([x + off * r.normal(), y + off * r.normal()]);
        }
        for _ in 0..self.strays {
            spots.push(self.place(r, self.breadth[0]));
        }
        for _ in 0..self.dark {
            let [x, y] = self.place(r, self.breadth[1]);
            directions.push(direction(&self.attitude, self.scale * x, self.scale * y));
        }
        for _ in 0..self.elsewhere {
            directions.push(attitude(r)[2].map(|c| c as f32));
        }
        (spots, directions)
    }

    fn place(&self, r: &mut Rng, breadth: f64) -> [f64; 2] {
        let [x, y] = self.middle.map(|_| r.between(-self.half, self.half));
        [self.middle[0] + breadth * x, self.middle[1] + y]
    }
}

pub fn narrowed(rows: &Rows) -> [f32; 9] {
    let mut entries = [0.0; 9];
    for (i, entry) in entries.iter_mut().enumerate() {
        *entry = rows[i / 3][i % 3] as f32;
    }
    entries
}

/// Puts a list into any order; tells where each former place went.
fn shuffled<T>(r: &mut Rng, list: &mut [T]) -> Vec<u32> {
    let mut from: Vec<u32> = (0..list.len() as u32).collect();
    for i in (1..list.len()).rev() {
        let j = r.below(i as u64 + 1) as usize;
        list.swap(i, j);
        from.swap(i, j);
    }
    let mut to = vec![0; list.len()];
    for (place, &former) in from.iter().enumerate() {
        to[former as usize] = place as u32;
    }
    to
}

/// Rows of the rotation of a quaternion of any length.
fn rotation([w, x, y, z]: [f64; 4]) -> Rows {
    let n = (w * w + x * x + y * y + z * z).sqrt();
    let [w, x, y, z] = [w / n, x / n, y / n, z / n];
    [
        [1.0 - 2.0 * (y * y + z * z), 2.0 * (x * y - w * z), 2.0 * (x * z + w * y)],
        [2.0 * (x * y + w * z), 1.0 - 2.0 * (x * x + z * z), 2.0 * (y * z - w * x)],
        [2.0 * (x * z - w * y), 2.0 * (y * z + w * x), 1.0 - 2.0 * (x * x + y * y)],
    ]
}

/// Any attitude: the camera's axes as rows.
pub fn attitude(r: &mut Rng) -> Rows {
    rotation([r.normal(), r.normal(), r.normal(), r.normal()])
}

/// An attitude looking along `boresight`, with any roll.
pub fn looking(r: &mut Rng, boresight: [f64; 3]) -> Rows {
    let z = unit(boresight);
    let x = unit(cross(attitude(r)[0], z));
    [x, cross(z, x), z]
}

/// An attitude along the axes, half of them looking exactly backwards.
pub fn squarely(r: &mut Rng) -> Rows {
    let ends = [1.0, -1.0];
    let along = |axis: usize, end: f64| [0, 1, 2].map(|i| if i == axis { end } else { 0.0 });
    let (axis, end) = if r.once_in(2) { (0, -1.0) } else { (r.whole(0, 2), r.pick(&ends)) };
    let (z, x) = (along(axis, end), along((axis + r.whole(1, 2)) % 3, r.pick(&ends)));
    [x, cross(z, x), z]
}

/// The attitude turned about its own axes by small angles.
pub fn turned(rows: &Rows, about_x: f64, about_y: f64, about_z: f64) -> Rows {
    let by = rotation([1.0, about_x / 2.0, about_y / 2.0, about_z / 2.0]);
    by.map(|b| [0, 1, 2].map(|j| b[0] * rows[0][j] + b[1] * rows[1][j] + b[2] * rows[2][j]))
}

/// The direction seen at a place of the tangent plane.
pub fn direction(rows: &Rows, xi: f64, eta: f64) -> [f32; 3] {
    unit([0, 1, 2].map(|j| xi * rows[0][j] + eta * rows[1][j] + rows[2][j])).map(|c| c as f32)
}

fn unit(v: [f64; 3]) -> [f64; 3] {
    let n = (v[0] * v[0] + v[1] * v[1] + v[2] * v[2]).sqrt();
    v.map(|c| c / n)
}

fn cross(a: [f64; 3], b: [f64; 3]) -> [f64; 3] {
    [a[1] * b[2] - a[2] * b[1], a[2] * b[0] - a[0] * b[2], a[0] * b[1] - a[1] * b[0]]
}
