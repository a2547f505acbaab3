//! Linear equations over bits.

/// Which of the vectors add up to the sum: bit j is for vector j.
pub fn solve(vectors: &[u128], sum: u128) -> Option<u128> {
    let mut basis = [(0, 0); 128];
    for (j, &vector) in vectors.iter().enumerate() {
        let (rest, from) = reduce(&basis, vector, 1 << j);
        if rest != 0 {
            basis[rest.ilog2() as usize] = (rest, from);
        }
    }
    let (rest, from) = reduce(&basis, sum, 0);
    (rest == 0).then_some(from)
}

/// Adds vectors of the basis, each kept at the place of its top bit, until none fits.
fn reduce(basis: &[(u128, u128); 128], mut vector: u128, mut from: u128) -> (u128, u128) {
    for (place, &(other, others)) in basis.iter().enumerate().rev() {
        if other != 0 && vector >> place & 1 == 1 {
            vector ^= other;
            from ^= others;
        }
    }
    (vector, from)
}

pub fn ones(set: u128) -> impl Iterator<Item = usize> {
    (0..128).filter(move |j| set >> j & 1 == 1)
}
