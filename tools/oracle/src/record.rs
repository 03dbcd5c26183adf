//! The exposure record: whole numbers in groups of seven bits, lowest first.

/// The longest record, in bytes.
pub const LONGEST: usize = 65_536;
/// The numbers of a spot: x, y and its weight.
pub const SPOT_NUMBERS: usize = 3;

/// What a record holds, its lists flat, as a refinement call takes them.
#[derive(Clone, Debug, Default)]
pub struct Exposure {
    pub mirror: bool,
    pub scale: f64,
    pub radius: f32,
    /// A direction is dropped where its denominator is at most this.
    pub cut: f64,
    pub limit: usize,
    pub rounds: u64,
    pub rotation: [f32; 9],
    /// x, y and weight of each.
    pub spots: Vec<f64>,
    pub matches: Vec<usize>,
    pub directions: Vec<f32>,
}

struct Reader<'a> {
    bytes: std::slice::Iter<'a, u8>,
}

impl Reader<'_> {
    /// One number of at most `width` bits, or refusal 2 or 3 at the byte where
    /// it is certain.
    fn number(&mut self, width: u32) -> Result<u64, u8> {
        let mut value = 0;
        let mut shift = 0;
        loop {
            let byte = *self.bytes.next().ok_or(2)?;
            let group = (byte & 0x7F) as u64;
            let room = width - shift;
            let goes_on = byte & 0x80 != 0;
            let exceeds = room < 7 && group >> room != 0;
            let no_ending = goes_on && room <= 7;
            let longer_than_needed = !goes_on && group == 0 && shift > 0;
            if exceeds || no_ending || longer_than_needed {
                return Err(3);
            }
            value |= group << shift;
            if !goes_on {
                return Ok(value);
            }
            shift += 7;
        }
    }

    fn f32(&mut self) -> Result<f32, u8> {
        Ok(f32::from_bits(self.number(32)? as u32))
    }

    fn f64(&mut self) -> Result<f64, u8> {
        Ok(f64::from_bits(self.number(64)?))
    }

    fn exposure(&mut self) -> Result<Exposure, u8> {
        let [spots, matches, directions] = [self.number(32)?, self.number(32)?, self.number(32)?];
        let mut e = Exposure {
            mirror: self.number(1)? == 1,
            scale: self.f64()?,
            radius: self.f32()?,
            cut: self.f64()?,
            limit: self.number(32)? as usize,
            rounds: self.number(32)?,
            ..Exposure::default()
        };
        for entry in &mut e.rotation {
            *entry = self.f32()?;
        }
        // No room is set aside by the counts: the bytes may end long before.
        for _ in 0..SPOT_NUMBERS as u64 * spots {
            e.spots.push(self.f64()?);
        }
        for _ in 0..2 * matches {
            e.matches.push(self.number(32)? as usize);
        }
        for _ in 0..3 * directions {
            e.directions.push(self.f32()?);
        }
        Ok(e)
    }
}

/// A record of any length, or refusal 2, 3 or 4.
pub fn read_any(bytes: &[u8]) -> Result<Exposure, u8> {
    let mut reader = Reader { bytes: bytes.iter() };
    let exposure = reader.exposure()?;
    if reader.bytes.next().is_some() {
        return Err(4);
    }
    Ok(exposure)
}

/// A record, or refusal 1 to 4.
pub fn read(bytes: &[u8]) -> Result<Exposure, u8> {
    if bytes.len() > LONGEST {
        return Err(1);
    }
    read_any(bytes)
}
