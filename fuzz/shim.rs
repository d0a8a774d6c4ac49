//! The independent decoder, as the fuzz target calls it from C: the same questions in the same form as include/skeptolyr.h.
use std::slice;

/// # Safety
/// `file` points to `file_length` octets.
#[no_mangle]
pub unsafe extern "C" fn reference_check(file: *const u8, file_length: usize) -> u64 {
    match reference::check(slice::from_raw_parts(file, file_length)) {
        Ok(counts) => counts.code(),
        Err(refusal) => refusal.code(),
    }
}

/// # Safety
/// `file` points to `file_length` octets, and `values` and `presence` to as many elements as their lengths say. None of the three overlap.
#[no_mangle]
pub unsafe extern "C" fn reference_decode(
    file: *const u8,
    file_length: usize,
    k: usize,
    start: usize,
    values: *mut f64,
    values_length: usize,
    presence: *mut u8,
    presence_length: usize,
) -> u64 {
    let file = slice::from_raw_parts(file, file_length);
    let values = slice::from_raw_parts_mut(values, values_length);
    let presence = slice::from_raw_parts_mut(presence, presence_length);
    match reference::decode(file, k as u64, start as u64, values, presence) {
        Ok(points) => u64::from(points),
        Err(refusal) => refusal.code(),
    }
}

/// # Safety
/// `file` points to `file_length` octets, and `numbers` to `numbers_length` elements. They do not overlap.
#[no_mangle]
pub unsafe extern "C" fn reference_describe(file: *const u8, file_length: usize, k: usize, numbers: *mut i64, numbers_length: usize) -> u64 {
    let (file, numbers) = (slice::from_raw_parts(file, file_length), slice::from_raw_parts_mut(numbers, numbers_length));
    reference::describe_into(file, k as u64, numbers).unwrap_or_else(|refusal| refusal.code())
}

/// # Safety
/// `file` points to `file_length` octets, and `position` to `position_length` elements. They do not overlap.
#[no_mangle]
pub unsafe extern "C" fn reference_place(file: *const u8, file_length: usize, k: usize, n: usize, position: *mut i64, position_length: usize) -> u64 {
    let (file, position) = (slice::from_raw_parts(file, file_length), slice::from_raw_parts_mut(position, position_length));
    reference::place_into(file, k as u64, n as u64, position).unwrap_or_else(|refusal| refusal.code())
}

/// # Safety
/// `file` points to `file_length` octets, and `place` to `place_length` elements. They do not overlap.
#[no_mangle]
pub unsafe extern "C" fn reference_sheet(file: *const u8, file_length: usize, k: usize, n: usize, place: *mut i64, place_length: usize) -> u64 {
    let (file, place) = (slice::from_raw_parts(file, file_length), slice::from_raw_parts_mut(place, place_length));
    reference::sheet_into(file, k as u64, n as u64, place).unwrap_or_else(|refusal| refusal.code())
}

/// # Safety
/// `file` points to `file_length` octets, and `value` to `value_length` elements. They do not overlap.
#[no_mangle]
pub unsafe extern "C" fn reference_point(file: *const u8, file_length: usize, k: usize, n: usize, value: *mut f64, value_length: usize) -> u64 {
    let (file, value) = (slice::from_raw_parts(file, file_length), slice::from_raw_parts_mut(value, value_length));
    reference::point_into(file, k as u64, n as u64, value).unwrap_or_else(|refusal| refusal.code())
}

/// # Safety
/// `file` points to `file_length` octets, and `picture` to `picture_length` octets. They do not overlap.
#[no_mangle]
pub unsafe extern "C" fn reference_picture(file: *const u8, file_length: usize, k: usize, picture: *mut u8, picture_length: usize) -> u64 {
    let (file, picture) = (slice::from_raw_parts(file, file_length), slice::from_raw_parts_mut(picture, picture_length));
    reference::picture_into(file, k as u64, picture).unwrap_or_else(|refusal| refusal.code())
}
