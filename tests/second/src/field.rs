//! Arithmetic modulo 3457 on numbers below 3457, and the table of the powers of 7.

/// "q = 3457, a prime".
pub const Q: u16 = 3457;

/// "q - 1 = 3456": after so many steps the powers of 7 begin again.
pub const ORDER: usize = 3456;

/// Entry i is 7^i.
pub type Powers = [u16; ORDER];

pub fn add(a: u16, b: u16) -> u16 {
    let sum = a + b;
    if sum >= Q {
        sum - Q
    } else {
        sum
    }
}

pub fn sub(a: u16, b: u16) -> u16 {
    if a >= b {
        a - b
    } else {
        a + Q - b
    }
}

pub fn mul(a: u16, b: u16) -> u16 {
    (u32::from(a) * u32::from(b) % u32::from(Q)) as u16
}

/// "A power is found from the power of half the exponent"; "anything to the power 0 is 1".
pub fn power(base: u16, exponent: u16) -> u16 {
    if exponent == 0 {
        return 1;
    }
    let half = power(base, exponent / 2);
    let square = mul(half, half);
    if exponent % 2 == 0 {
        square
    } else {
        mul(square, base)
    }
}

/// "The inverse of 0 is given as 0": 0 to the power q - 2 is 0, and any other number times this power of it is 1.
pub fn inverse(a: u16) -> u16 {
    power(a, Q - 2)
}

/// "entry 0 is 1, each next entry is 7 times the one before".
pub fn powers() -> Powers {
    let mut powers = [1; ORDER];
    for i in 1..ORDER {
        powers[i] = mul(7, powers[i - 1]);
    }
    powers
}

#[cfg(test)]
mod tests {
    use super::*;

    #[test]
    fn every_number_but_zero_times_its_inverse_is_one() {
        assert_eq!(inverse(0), 0);
        for a in 1..Q {
            assert_eq!(mul(a, inverse(a)), 1);
        }
    }

    #[test]
    fn the_table_holds_every_number_but_zero_once() {
        let mut met = powers();
        met.sort_unstable();
        assert!(met.iter().zip(1..Q).all(|(&number, expected)| number == expected));
    }

    #[test]
    fn subtracting_undoes_adding() {
        for a in 0..Q {
            for b in [0, 1, 1728, 1729, 3456] {
                assert_eq!(sub(add(a, b), b), a);
            }
        }
    }
}
