//! An exposure and its record.

#[derive(Clone, Debug)]
pub struct Exposure {
    pub mirror: bool,
    pub scale: f64,
    pub radius: f32,
    pub cut: f64,
    pub limit: u32,
    pub rounds: u32,
    pub rotation: [f32; 9],
    pub spots: Vec<[f64; 2]>,
    /// One for each spot, laid on when the spots are as they stay.
    pub weights: Vec<f64>,
    pub matches: Vec<[u32; 2]>,
    pub directions: Vec<[f32; 3]>,
}

impl Exposure {
    /// The record's numbers in their order.
    pub fn numbers(&self) -> Vec<u64> {
        let counts = [self.spots.len(), self.matches.len(), self.directions.len()];
        let mut numbers: Vec<u64> = counts.iter().map(|&n| n as u64).collect();
        numbers.push(self.mirror as u64);
        numbers.push(self.scale.to_bits());
        numbers.push(self.radius.to_bits() as u64);
        numbers.push(self.cut.to_bits());
        numbers.push(self.limit as u64);
        numbers.push(self.rounds as u64);
        numbers.extend(self.rotation.iter().map(|x| x.to_bits() as u64));
        assert_eq!(self.weights.len(), self.spots.len(), "a weight for each spot");
        let spots = self.spots.iter().zip(&self.weights);
        numbers.extend(spots.flat_map(|([x, y], weight)| [x, y, weight]).map(|x| x.to_bits()));
        numbers.extend(self.matches.iter().flatten().map(|&i| i as u64));
        numbers.extend(self.directions.iter().flatten().map(|x| x.to_bits() as u64));
        numbers
    }

    pub fn bytes(&self) -> Vec<u8> {
        encoded(&self.numbers())
    }
}

pub fn encoded(numbers: &[u64]) -> Vec<u8> {
    let mut bytes = Vec::new();
    for &n in numbers {
        push(&mut bytes, n);
    }
    bytes
}

/// One number in its shortest form.
pub fn push(bytes: &mut Vec<u8>, mut n: u64) {
    while n > 0x7F {
        bytes.push(n as u8 | 0x80);
        n >>= 7;
    }
    bytes.push(n as u8);
}
