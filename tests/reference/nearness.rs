//! Demand 3's comparison: whether a double is within 2^-51 of the exact fraction it stands for, judged over whole numbers.
//!
//! Nothing here rounds. With S = 2^149 (R + X x 2^E) and V = 2^1074 times the double, both sides of the inequality are built in full.

/// The largest side, 2^51 (V x 2^149 x 10^22), stays below 2^2373.
const ELEMENTS: usize = 38;

/// A whole number of 2,432 bits, least 64 first.
#[derive(Clone, Copy, PartialEq, Eq)]
struct Whole([u64; ELEMENTS]);

impl Whole {
    /// The number times 2 to the given power.
    fn shifted(number: u128, power: usize) -> Whole {
        let mut whole = Whole([0; ELEMENTS]);
        for (index, half) in [number as u64, (number >> 64) as u64].into_iter().enumerate() {
            whole.0[index] = half;
        }
        whole.times_two_to(power)
    }

    fn times_two_to(&self, power: usize) -> Whole {
        let (elements, bits) = (power / 64, power % 64);
        let mut product = [0; ELEMENTS];
        let mut from_below = 0;
        for (element, old) in product.iter_mut().skip(elements).zip(self.0) {
            let pair = u128::from(old) << bits;
            *element = pair as u64 | from_below;
            from_below = (pair >> 64) as u64;
        }
        Whole(product)
    }

    fn times(&self, factor: u64) -> Whole {
        let mut product = [0; ELEMENTS];
        let mut carry = 0;
        for (element, old) in product.iter_mut().zip(self.0) {
            let column = u128::from(old) * u128::from(factor) + carry;
            *element = column as u64;
            carry = column >> 64;
        }
        Whole(product)
    }

    /// Ten to 22 is too large for one factor, so it is taken in two.
    fn times_ten_to(&self, power: u32) -> Whole {
        self.times(10u64.pow(power / 2)).times(10u64.pow(power - power / 2))
    }

    fn plus(&self, other: &Whole) -> Whole {
        let mut total = [0; ELEMENTS];
        let mut carry = 0;
        for (index, element) in total.iter_mut().enumerate() {
            let column = u128::from(self.0[index]) + u128::from(other.0[index]) + carry;
            *element = column as u64;
            carry = column >> 64;
        }
        Whole(total)
    }

    /// The larger of the two less the smaller.
    fn apart_from(&self, other: &Whole) -> Whole {
        let (larger, smaller) = if self.is_at_most(other) { (other, self) } else { (self, other) };
        let mut rest = [0; ELEMENTS];
        let mut borrow = 0;
        for (index, element) in rest.iter_mut().enumerate() {
            let taken = u128::from(smaller.0[index]) + borrow;
            let column = u128::from(larger.0[index]) + (1 << 64) - taken;
            *element = column as u64;
            borrow = 1 - (column >> 64);
        }
        Whole(rest)
    }

    fn is_at_most(&self, other: &Whole) -> bool {
        self.0.iter().rev().le(other.0.iter().rev())
    }

    fn is_zero(&self) -> bool {
        self.0.iter().all(|element| *element == 0)
    }
}

/// A whole number with a sign.
struct Signed {
    is_negative: bool,
    size: Whole,
}

/// S, the exact sum in units of 2^-149.
fn exact_sum(r: u32, e: i64, x: u32) -> Signed {
    let exponent_field = (r >> 23 & 0xFF) as usize;
    let fraction = u128::from(r & 0x7F_FFFF);
    let size_of_r = match exponent_field {
        0 => Whole::shifted(fraction, 0),
        _ => Whole::shifted(fraction + (1 << 23), exponent_field - 1),
    };
    let size_of_rest = Whole::shifted(u128::from(x), (149 + e) as usize);
    if r >> 31 == 0 {
        Signed { is_negative: false, size: size_of_r.plus(&size_of_rest) }
    } else {
        Signed { is_negative: !size_of_r.is_at_most(&size_of_rest), size: size_of_r.apart_from(&size_of_rest) }
    }
}

/// V, the finite double in units of 2^-1074.
fn units_of_double(double: f64) -> Signed {
    let bits = double.to_bits();
    let exponent_field = (bits >> 52 & 0x7FF) as usize;
    let fraction = u128::from(bits & 0xF_FFFF_FFFF_FFFF);
    let size = match exponent_field {
        0 => Whole::shifted(fraction, 0),
        _ => Whole::shifted(fraction + (1 << 52), exponent_field - 1),
    };
    Signed { is_negative: bits >> 63 == 1, size }
}

/// Whether the double meets demand 3 for this R (the single's bits), E, D and X.
///
/// Numbers that section 5 or X's range would refuse, and doubles that are not finite, are never near enough. A zero must be +0.
pub fn near_enough(double: f64, r: u32, e: i64, d: i64, x: u32) -> bool {
    let is_taken = r >> 23 & 0xFF != 0xFF && (-127..=127).contains(&e) && (-22..=22).contains(&d) && x <= 0x7FFF_FFFF;
    if !is_taken || double.to_bits() >> 52 & 0x7FF == 0x7FF {
        return false;
    }
    let exact = exact_sum(r, e, x);
    if exact.size.is_zero() {
        return double.to_bits() == 0;
    }
    let told = units_of_double(double);
    let power_of_ten = d.unsigned_abs() as u32;
    let (mut told_side, mut exact_side) = (told.size.times_two_to(149), exact.size.times_two_to(1074));
    if d >= 0 {
        told_side = told_side.times_ten_to(power_of_ten);
    } else {
        exact_side = exact_side.times_ten_to(power_of_ten);
    }
    let distance = if told.is_negative == exact.is_negative { told_side.apart_from(&exact_side) } else { told_side.plus(&exact_side) };
    distance.times_two_to(51).is_at_most(&exact_side)
}
