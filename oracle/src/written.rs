//! Document 02, e: a job by the 64 bits of its numbers, its one written form, and what the converter
//! gives of a job file. From the documents alone; nothing here goes through a double.

const TRAILER_BYTES: usize = 48;
const MAX_BYTES: usize = 65_536;
const MAX_ROWS: usize = 128;
const MAX_BODIES: usize = 64;
const MAX_MODE: u32 = 2;
const ROW_BYTES: usize = 248;

/// The old layout, without centres, and the new one; above that there is none.
pub const OLD: u32 = 0;
pub const NEW: u32 = 1;
pub const NONE: u32 = 2;

type Section = std::ops::Range<usize>;

/// The converter's file, or the number of its refusal: 1, 2, 3, 4, 24 in this order. Its output is
/// always lent at the right length.
pub fn converted(file: &[u8], layout: u32) -> Result<Vec<u8>, u32> {
    let trailer = Trailer::of(file).ok_or(1u32)?;
    let [rows, masses] = trailer.sections(file.len()).ok_or(2u32)?;
    if trailer.mode > MAX_MODE || layout > NEW {
        return Err(3);
    }
    let job = Bits::read(file, &trailer, rows, masses);
    if !job.rows.iter().all(Row::fits) {
        return Err(4);
    }
    if layout == OLD && job.bodies.iter().any(|body| body.centre != [0; 3]) {
        return Err(24);
    }
    Ok(job.written(layout))
}

/// Where the rows and the masses of a file lie that neither 1 nor 2 turns back.
pub fn sections(file: &[u8]) -> Option<[Section; 2]> {
    Trailer::of(file)?.sections(file.len())
}

/// The job of a file that is sound, with its layout.
pub fn job(file: &[u8]) -> Option<(Bits, u32)> {
    let trailer = Trailer::of(file)?;
    let [rows, masses] = trailer.sections(file.len())?;
    Some((Bits::read(file, &trailer, rows, masses), trailer.spare))
}

/// Takes numbers from the front, the lowest byte first.
struct Cursor<'a>(&'a [u8]);

impl Cursor<'_> {
    fn low(&mut self, bytes: usize) -> u64 {
        let (first, rest) = self.0.split_at(bytes);
        self.0 = rest;
        first.iter().rev().fold(0, |number, byte| number << 8 | u64::from(*byte))
    }

    fn half(&mut self) -> u32 {
        self.low(4) as u32
    }

    fn whole(&mut self) -> u64 {
        self.low(8)
    }
}

struct Trailer {
    rows: u32,
    bodies: u32,
    limit: u32,
    mode: u32,
    row_offset: u32,
    mass_offset: u32,
    tolerances: [u64; 2],
    spare: u32,
}

impl Trailer {
    /// None where 1 turns the file back.
    fn of(file: &[u8]) -> Option<Self> {
        if file.len() > MAX_BYTES {
            return None;
        }
        let mut at = Cursor(&file[file.len().checked_sub(TRAILER_BYTES)?..]);
        let [rows, bodies, limit, mode, row_offset, mass_offset] = [0; 6].map(|_| at.half());
        let tolerances = [0; 2].map(|_| at.whole());
        let (length, spare) = (at.half() as usize, at.half());
        let sound = length == file.len() && spare <= NEW;
        let head = [rows, bodies, limit, mode];
        sound.then(|| {
            let [rows, bodies, limit, mode] = head;
            Self { rows, bodies, limit, mode, row_offset, mass_offset, tolerances, spare }
        })
    }

    /// None where 2 turns the file back.
    fn sections(&self, length: usize) -> Option<[Section; 2]> {
        let (rows, bodies) = (self.rows as usize, self.bodies as usize);
        if rows > MAX_ROWS || bodies > MAX_BODIES {
            return None;
        }
        let of = |offset: u32, bytes: usize| offset as usize..offset as usize + bytes;
        let both = [
            of(self.row_offset, ROW_BYTES * rows),
            of(self.mass_offset, mass_bytes(self.spare) * bodies),
        ];
        let [low, high] = [both[0].start.max(both[1].start), both[0].end.min(both[1].end)];
        let overlap = both.iter().all(|section| !section.is_empty()) && low < high;
        let inside = both.iter().all(|section| section.end <= length - TRAILER_BYTES);
        (inside && !overlap).then_some(both)
    }
}

fn mass_bytes(layout: u32) -> usize {
    if layout == NEW { 104 } else { 80 }
}

#[derive(PartialEq)]
struct Row {
    numbers: [u64; 27],
    words: [u32; 8],
}

impl Row {
    /// 4: key, dimension, both flags and the spare.
    fn fits(&self) -> bool {
        let [key, dimension, _, _, force_driven, position_enabled, _, spare] = self.words;
        key < 256 && dimension < 2 && force_driven < 2 && position_enabled < 2 && spare == 0
    }
}

#[derive(PartialEq)]
struct Body {
    mass: [u64; 10],
    /// The bits of +0.0 where the file has none.
    centre: [u64; 3],
}

/// A job with every number by its bits.
#[derive(PartialEq)]
pub struct Bits {
    rows: Vec<Row>,
    bodies: Vec<Body>,
    limit: u32,
    mode: u32,
    tolerances: [u64; 2],
}

impl Bits {
    fn read(file: &[u8], trailer: &Trailer, rows: Section, masses: Section) -> Self {
        let (mut at, mut on) = (Cursor(&file[rows]), Cursor(&file[masses]));
        let row =
            |_| Row { numbers: [0; 27].map(|_| at.whole()), words: [0; 8].map(|_| at.half()) };
        let body = |_| Body {
            mass: [0; 10].map(|_| on.whole()),
            centre: [0; 3].map(|_| if trailer.spare == NEW { on.whole() } else { 0 }),
        };
        Self {
            rows: (0..trailer.rows).map(row).collect(),
            bodies: (0..trailer.bodies).map(body).collect(),
            limit: trailer.limit,
            mode: trailer.mode,
            tolerances: trailer.tolerances,
        }
    }

    /// Rows from byte 0, masses straight after, then the trailer.
    fn written(&self, layout: u32) -> Vec<u8> {
        let mut file = Vec::new();
        let halves = |file: &mut Vec<u8>, words: &[u32]| {
            file.extend(words.iter().flat_map(|word| word.to_le_bytes()));
        };
        let wholes = |file: &mut Vec<u8>, numbers: &[u64]| {
            file.extend(numbers.iter().flat_map(|number| number.to_le_bytes()));
        };
        for row in &self.rows {
            wholes(&mut file, &row.numbers);
            halves(&mut file, &row.words);
        }
        let masses_at = file.len() as u32;
        for body in &self.bodies {
            wholes(&mut file, &body.mass);
            if layout == NEW {
                wholes(&mut file, &body.centre);
            }
        }
        let counts = [self.rows.len() as u32, self.bodies.len() as u32];
        let length = (file.len() + TRAILER_BYTES) as u32;
        halves(&mut file, &[counts[0], counts[1], self.limit, self.mode, 0, masses_at]);
        wholes(&mut file, &self.tolerances);
        halves(&mut file, &[length, layout]);
        file
    }
}
