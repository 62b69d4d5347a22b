//! The yard file's four records.
use crate::Answer;

pub const LONGEST_FILE: usize = 43_536;

/// The bodies of records one to four.
pub fn read_records(file: &[u8]) -> Result<[&[u8]; 4], Answer> {
    if file.len() > LONGEST_FILE {
        return Err(Answer::new(1, 0, 0, 0));
    }
    let mut bodies: [&[u8]; 4] = [&[]; 4];
    let mut rest = file;
    for record in 1..=4u16 {
        let incomplete = Answer::new(2, record as u64, 0, 0);
        if rest.len() < 4 {
            return Err(incomplete);
        }
        let (header, after) = rest.split_at(4);
        let length = u16::from_le_bytes([header[0], header[1]]) as usize;
        let kind = u16::from_le_bytes([header[2], header[3]]);
        if kind != record {
            return Err(Answer::new(3, record as u64, kind as u64, 0));
        }
        if after.len() < length {
            return Err(incomplete);
        }
        let (body, after) = after.split_at(length);
        bodies[record as usize - 1] = body;
        rest = after;
    }
    if !rest.is_empty() {
        let offset = file.len() - rest.len();
        return Err(Answer::new(4, offset as u64, 0, 0));
    }
    Ok(bodies)
}
