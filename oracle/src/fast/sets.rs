//! Sets of vertices, a bit each.

pub(super) type Vertices = u128;

pub(super) const MOST_VERTICES: usize = 128;

#[inline]
pub(super) fn bit(vertex: usize) -> Vertices {
    1 << vertex
}

/// The bit of each vertex. A set of many is joined faster from here.
pub(super) static BITS: [Vertices; 256] = {
    let mut bits = [0; 256];
    let mut vertex = 0;
    while vertex < MOST_VERTICES {
        bits[vertex] = 1 << vertex;
        vertex += 1;
    }
    bits
};

#[inline]
pub(super) fn lowest(set: Vertices) -> usize {
    set.trailing_zeros() as usize
}

#[inline]
pub(super) fn highest(set: Vertices) -> usize {
    127 - set.leading_zeros() as usize
}

/// Vertices 0 to `count` - 1.
#[inline]
pub(super) fn below(count: usize) -> Vertices {
    Vertices::MAX >> (MOST_VERTICES - count)
}

/// What `from` and all that follows it reach, but not what is known already.
#[inline]
pub(super) fn spread(
    from: Vertices,
    known: Vertices,
    mut next: impl FnMut(u8) -> Vertices,
) -> Vertices {
    let mut unknown = !known & !from;
    let mut todo = Members(from & !known);
    while let Some(vertex) = todo.next() {
        let new = next(vertex) & unknown;
        unknown ^= new;
        todo.0 |= new;
    }
    !known & !unknown
}

/// The members of a set, lowest first.
pub(super) struct Members(pub(super) Vertices);

impl Iterator for Members {
    type Item = u8;

    #[inline]
    fn next(&mut self) -> Option<u8> {
        // By halves, which takes fewer instructions.
        let (low, high) = (self.0 as u64, (self.0 >> 64) as u64);
        if low != 0 {
            self.0 = (high as Vertices) << 64 | (low & (low - 1)) as Vertices;
            Some(low.trailing_zeros() as u8)
        } else if high != 0 {
            self.0 = ((high & (high - 1)) as Vertices) << 64;
            Some(64 + high.trailing_zeros() as u8)
        } else {
            None
        }
    }
}
