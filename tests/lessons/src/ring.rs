//! Set 576, plainly: the schoolbook product with either fold, inverses, and the steps of an agreement.

pub const Q: i32 = 3457;
pub const N: usize = 576;
/// The order of the set's root 49.
const ORDER: usize = 1728;

pub type Poly = Vec<i32>;

#[derive(Clone, Copy, PartialEq, Eq)]
pub enum Fold {
    Right,
    Wrong,
}

/// Coefficients of any degree brought below x^n, from the top down, so that what lands at x^n or above is folded again.
fn fold(how: Fold, mut c: Poly) -> Poly {
    for i in (N..c.len()).rev() {
        match how {
            Fold::Right => c[i - N / 2] += c[i], // x^n = x^(n/2) - 1
            Fold::Wrong => c[i - N / 2] -= c[i], // the slip: x^n = -x^(n/2) - 1
        }
        c[i - N] -= c[i];
    }
    poly(|i| c[i].rem_euclid(Q))
}

/// The polynomial with these coefficients.
pub fn poly(coefficient: impl FnMut(usize) -> i32) -> Poly {
    (0..N).map(coefficient).collect()
}

pub fn product(how: Fold, a: &[i32], b: &[i32]) -> Poly {
    let mut c = vec![0; 2 * N];
    for (i, x) in a.iter().enumerate() {
        for (j, y) in b.iter().enumerate() {
            c[i + j] = (c[i + j] + x * y) % Q;
        }
    }
    fold(how, c)
}

fn power(base: i32, exponent: usize) -> i32 {
    (0..exponent).fold(1, |p, _| p * base % Q)
}

/// The inverse in the ring; none if a slot of f is zero. A slot is the value at 49^e for an e coprime to 6, with the
/// wrong fold for an e that leaves 2 or 4 by 6. Sums of the inverted values make a polynomial below x^1728.
fn inverse(how: Fold, f: &[i32]) -> Option<Poly> {
    let left = if how == Fold::Right { [1, 5] } else { [2, 4] };
    let powers: Vec<i32> = (0..ORDER).map(|i| power(49, i)).collect();
    let mut c = vec![0; ORDER];
    for e in (0..ORDER).filter(|e| left.contains(&(e % 6))) {
        let value = f.iter().rev().fold(0, |v, x| (v * powers[e] + x).rem_euclid(Q));
        if value == 0 {
            return None;
        }
        let inverted = power(value * ORDER as i32 % Q, Q as usize - 2);
        for (j, x) in c.iter_mut().enumerate() {
            *x = (*x + inverted * powers[(ORDER - e) * j % ORDER]) % Q;
        }
    }
    Some(fold(how, c)) // folding keeps the values at the roots
}

/// A generator of bits: one seed gives one run, so that a lesson prints the same text each time.
pub struct Random(pub u64);

impl Random {
    pub fn bit(&mut self) -> i32 {
        self.0 = self.0.wrapping_mul(0x5851_F42D_4C95_7F2D).wrapping_add(1);
        (self.0 >> 63) as i32
    }

    /// Each coefficient is a bit less a bit, as in sampling.
    pub fn small(&mut self) -> Poly {
        poly(|_| self.bit() - self.bit())
    }
}

/// The private f = 3f' + 1 and the public h = g/f with g = 3g'. As in `make`, neither f nor g may have a zero slot.
pub fn pair(how: Fold, random: &mut Random) -> (Poly, Poly) {
    let (small_f, small_g) = (random.small(), random.small());
    let f = poly(|i| 3 * small_f[i] + i32::from(i == 0));
    let g = poly(|i| 3 * small_g[i]);
    match (inverse(how, &f), inverse(how, &g)) {
        (Some(inverse_f), Some(_)) => (f, product(how, &g, &inverse_f)),
        _ => pair(how, random),
    }
}

/// c = h*r + m.
pub fn seal(how: Fold, h: &[i32], r: &[i32], m: &[i32]) -> Poly {
    let hr = product(how, h, r);
    poly(|i| (hr[i] + m[i]).rem_euclid(Q))
}

/// m: the product of c and f, each residue taken to -1, 0 or 1 by the line.
pub fn open(how: Fold, c: &[i32], f: &[i32], line: fn(i32) -> i32) -> Poly {
    product(how, c, f).into_iter().map(line).collect()
}

/// At how many places two polynomials have the same coefficient.
pub fn alike(a: &[i32], b: &[i32]) -> usize {
    (0..N).filter(|&i| a[i] == b[i]).count()
}
