//! The list's bytes: `REPLAY01`, then the cases to the end of the file. All numbers low byte first.

use crate::case::{Case, Kind};

const HEAD: &[u8; 8] = b"REPLAY01";
const MOST_WHOLE: usize = 16;
const MOST_CELLS: usize = 65_536;

/// The bytes of a list of cases.
pub fn write(cases: &[Case]) -> Vec<u8> {
    let mut bytes = HEAD.to_vec();
    for case in cases {
        assert!(case.whole.len() <= MOST_WHOLE && case.cells.len() <= MOST_CELLS);
        bytes.push(case.kind as u8);
        bytes.push(case.whole.len() as u8);
        for v in &case.whole {
            bytes.extend(v.to_le_bytes());
        }
        bytes.extend((case.cells.len() as u32).to_le_bytes());
        for v in &case.cells {
            bytes.extend(v.to_bits().to_le_bytes());
        }
    }
    bytes
}

/// The cases of a list, or where its bytes do not read.
pub fn read(bytes: &[u8]) -> Result<Vec<Case>, String> {
    let mut bytes = Bytes { bytes, place: 0 };
    if bytes.take::<8>()? != *HEAD {
        return Err("the list does not begin with REPLAY01".to_string());
    }
    let mut cases = Vec::new();
    while bytes.place < bytes.bytes.len() {
        let place = bytes.place;
        let [number, count] = bytes.take()?;
        let kind = Kind::from_number(number)
            .ok_or_else(|| format!("byte {place}: no kind has number {number}"))?;
        if usize::from(count) > MOST_WHOLE {
            return Err(format!("byte {place}: {count} whole numbers"));
        }
        let whole = (0..count)
            .map(|_| bytes.take().map(u32::from_le_bytes))
            .collect::<Result<_, _>>()?;
        let count = u32::from_le_bytes(bytes.take()?) as usize;
        if count > MOST_CELLS {
            return Err(format!("byte {place}: {count} cells"));
        }
        let cells = (0..count)
            .map(|_| bytes.take().map(|b| f64::from_bits(u64::from_le_bytes(b))))
            .collect::<Result<_, _>>()?;
        cases.push(Case { kind, whole, cells });
    }
    Ok(cases)
}

/// Bytes with the place of the next one.
struct Bytes<'a> {
    bytes: &'a [u8],
    place: usize,
}

impl Bytes<'_> {
    fn take<const N: usize>(&mut self) -> Result<[u8; N], String> {
        let part = self.bytes.get(self.place..self.place + N);
        let part = part.ok_or_else(|| format!("byte {}: the list ends early", self.place))?;
        self.place += N;
        Ok(part.try_into().unwrap())
    }
}
