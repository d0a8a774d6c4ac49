//! From X to a double, over whole numbers alone: the sum rounded once, then the quotient or product rounded once.

use crate::Refusal;

const LARGEST_E: i64 = 127;
const LARGEST_D: i64 = 22;
const LARGEST_X: i64 = 2_147_483_647;

/// Every single is a whole number of units of 2 to this power.
const SINGLE_UNIT: i32 = -149;
/// Every double is a whole number of units of 2 to this power.
const DOUBLE_UNIT: i32 = -1074;
const DOUBLE_DIGITS: i32 = 53;
const LARGEST_DOUBLE_UNIT: i32 = 971;
const INFINITE_DOUBLE: u64 = 0x7FF0_0000_0000_0000;

/// Whether R is finite and E and D are within section 5's limits.
pub fn takes(r: u32, e: i64, d: i64) -> bool {
    let is_finite = (r >> 23) & 0xFF != 0xFF;
    is_finite && (-LARGEST_E..=LARGEST_E).contains(&e) && (-LARGEST_D..=LARGEST_D).contains(&d)
}

/// Rebuilds one double; R is given as the bits of the single.
pub fn rebuild(r: u32, e: i64, d: i64, x: i64) -> Result<f64, Refusal> {
    if !takes(r, e, d) || !(0..=LARGEST_X).contains(&x) {
        return Err(Refusal::without_place(19));
    }
    Ok(value(r, e, d, x as u32))
}

/// The double for numbers already known to be within the limits.
pub fn value(r: u32, e: i64, d: i64, x: u32) -> f64 {
    f64::from_bits(scaled_by_ten(rounded_sum(r, e, x), d))
}

/// A size of 320 bits, least 64 first: enough for 2^149 (R + X x 2^E), which stays below 2^308.
type Size = [u64; 5];

/// The number times 2 to the given power.
fn shifted(number: u32, power: u32) -> Size {
    let mut size = [0; 5];
    let index = (power / 64) as usize;
    let pair = u128::from(number) << (power % 64);
    let halves = [pair as u64, (pair >> 64) as u64];
    for (element, half) in size.iter_mut().skip(index).zip(halves) {
        *element = half;
    }
    size
}

fn sum(left: &Size, right: &Size) -> Size {
    let mut total = [0; 5];
    let mut carry = 0;
    for (element, (a, b)) in total.iter_mut().zip(left.iter().zip(right)) {
        let column = u128::from(*a) + u128::from(*b) + carry;
        *element = column as u64;
        carry = column >> 64;
    }
    total
}

/// The larger less the smaller.
fn difference(larger: &Size, smaller: &Size) -> Size {
    let mut rest = [0; 5];
    let mut borrow = false;
    for (element, (a, b)) in rest.iter_mut().zip(larger.iter().zip(smaller)) {
        let (without_borrow, first_borrow) = a.overflowing_sub(*b);
        let (column, second_borrow) = without_borrow.overflowing_sub(u64::from(borrow));
        *element = column;
        borrow = first_borrow || second_borrow;
    }
    rest
}

fn is_below(left: &Size, right: &Size) -> bool {
    left.iter().rev().lt(right.iter().rev())
}

/// The bits of R + X x 2^E rounded once, found from the exact sum in units of the single.
fn rounded_sum(r: u32, e: i64, x: u32) -> u64 {
    let exponent_field = (r >> 23) & 0xFF;
    let fraction = r & 0x007F_FFFF;
    let significand = if exponent_field == 0 { fraction } else { fraction | 0x0080_0000 };
    let size_of_r = shifted(significand, exponent_field.max(1) - 1);
    let size_of_rest = shifted(x, (e - i64::from(SINGLE_UNIT)) as u32);
    let r_is_negative = r >> 31 == 1;
    let (is_negative, size) = if !r_is_negative {
        (false, sum(&size_of_r, &size_of_rest))
    } else if is_below(&size_of_rest, &size_of_r) {
        (true, difference(&size_of_r, &size_of_rest))
    } else {
        (false, difference(&size_of_rest, &size_of_r))
    };
    let top = size.iter().rposition(|element| *element != 0).unwrap_or(0).max(1);
    let leading = (u128::from(size[top]) << 64) | u128::from(size[top - 1]);
    let has_more = size[..top - 1].iter().any(|element| *element != 0);
    rounded(is_negative, leading, SINGLE_UNIT + 64 * (top as i32 - 1), has_more)
}

/// The bits of a double divided by 10^D, or multiplied by 10^-D, rounded once.
///
/// Ten is five times two, and the twos only move the exponent. A quotient by 5^22 still has more than 60 bits when 60 are added in front.
fn scaled_by_ten(double: u64, d: i64) -> u64 {
    let is_negative = double >> 63 == 1;
    let exponent_field = ((double >> 52) & 0x7FF) as i32;
    let fraction = double & 0x000F_FFFF_FFFF_FFFF;
    let significand = if exponent_field == 0 { fraction } else { fraction | 0x0010_0000_0000_0000 };
    let unit = DOUBLE_UNIT + exponent_field.max(1) - 1;
    let power_of_five = 5u128.pow(d.unsigned_abs() as u32);
    if d < 0 {
        return rounded(is_negative, u128::from(significand) * power_of_five, unit - d as i32, false);
    }
    let dividend = u128::from(significand) << 60;
    let quotient = dividend / power_of_five;
    rounded(is_negative, quotient, unit - 60 - d as i32, quotient * power_of_five != dividend)
}

/// The bits of the double nearest to size x 2^unit, ties to even; with more, the true size lies strictly between this one and the next.
///
/// More is only stated where at least one bit is dropped here. A zero is +0 whatever the sign.
pub fn rounded(is_negative: bool, size: u128, unit: i32, has_more: bool) -> u64 {
    let digits = 128 - size.leading_zeros() as i32;
    let double_unit = (unit + digits - DOUBLE_DIGITS).max(DOUBLE_UNIT);
    let dropped = double_unit - unit;
    let significand = if dropped <= 0 { size << -dropped } else { nearest(size, dropped as u32, has_more) };
    if significand == 0 {
        return 0;
    }
    let without_sign = if double_unit > LARGEST_DOUBLE_UNIT {
        INFINITE_DOUBLE
    } else {
        (((double_unit - DOUBLE_UNIT) as u64) << 52) + significand as u64
    };
    (u64::from(is_negative) << 63) | without_sign
}

/// The size without its dropped bits (at least one), rounded to nearest, ties to even.
fn nearest(size: u128, dropped: u32, has_more: bool) -> u128 {
    let half = match 1u128.checked_shl(dropped - 1) {
        None => return 0,
        Some(half) => half,
    };
    let kept = size.checked_shr(dropped).unwrap_or(0);
    let rest = size & (half + (half - 1));
    let is_past_half = rest > half || (rest == half && has_more);
    let is_tie = rest == half && !has_more;
    kept + u128::from(is_past_half || (is_tie && kept % 2 == 1))
}
