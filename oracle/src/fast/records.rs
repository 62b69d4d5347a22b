//! Checks 1 to 4.
use super::{refused, Refusal};

const LONGEST_FILE: usize = 43_536;

/// The four bodies.
#[inline]
pub(super) fn records(file: &[u8]) -> Result<[&[u8]; 4], Refusal> {
    if file.len() > LONGEST_FILE {
        return Err(refused(1, 0, 0, 0));
    }
    let mut bodies: [&[u8]; 4] = [&[]; 4];
    let mut rest = file;
    for (i, body) in bodies.iter_mut().enumerate() {
        let number = i + 1;
        let Some((&[l0, l1, k0, k1], after)) = rest.split_first_chunk() else {
            return Err(refused(2, number, 0, 0));
        };
        let kind = u16::from_le_bytes([k0, k1]) as usize;
        if kind != number {
            return Err(refused(3, number, kind, 0));
        }
        let length = u16::from_le_bytes([l0, l1]) as usize;
        let Some((found, after)) = after.split_at_checked(length) else {
            return Err(refused(2, number, 0, 0));
        };
        *body = found;
        rest = after;
    }
    if !rest.is_empty() {
        return Err(refused(4, file.len() - rest.len(), 0, 0));
    }
    Ok(bodies)
}
