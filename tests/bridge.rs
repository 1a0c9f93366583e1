//! The second implementation and the generator for C. See second.h.

use generate::Case;
use second::command;
use std::slice::from_raw_parts;

/// # Safety
/// `command` points to `length` bytes. The same holds of every pointer and
/// length below.
#[no_mangle]
pub unsafe extern "C" fn second_check(command: *const u8, length: usize) -> u32 {
    command::check(from_raw_parts(command, length))
}

/// # Safety
/// As above.
#[no_mangle]
pub unsafe extern "C" fn second_lacks_args(command: *const u8, length: usize) -> u32 {
    command::lacks_args(from_raw_parts(command, length)).into()
}

/// # Safety
/// As above.
#[no_mangle]
pub unsafe extern "C" fn second_argument_count(command: *const u8, length: usize) -> u64 {
    command::argument_count(from_raw_parts(command, length))
}

/// # Safety
/// As above.
#[no_mangle]
pub unsafe extern "C" fn second_loose(command: *const u8, length: usize) -> u32 {
    command::loose(from_raw_parts(command, length)).into()
}

/// Where a part of the command stands, and its length; 0 and 0 if it is
/// refused.
unsafe fn place(command: &[u8], number: u32, part: &[u8], at: *mut usize, size: *mut usize) {
    (*at, *size) = match number {
        0 => (
            part.as_ptr().offset_from(command.as_ptr()) as usize,
            part.len(),
        ),
        _ => (0, 0),
    };
}

/// # Safety
/// As above; the other pointers are to places for a number.
#[no_mangle]
pub unsafe extern "C" fn second_name(
    command: *const u8,
    length: usize,
    at: *mut usize,
    size: *mut usize,
) -> u32 {
    let command = from_raw_parts(command, length);
    let number = command::check(command);
    place(command, number, command::name(command), at, size);
    number
}

/// # Safety
/// As above.
#[no_mangle]
pub unsafe extern "C" fn second_argument(
    command: *const u8,
    length: usize,
    key: *const u8,
    key_length: usize,
    at: *mut usize,
    size: *mut usize,
) -> u32 {
    let command = from_raw_parts(command, length);
    let key = from_raw_parts(key, key_length);
    let number = command::argument_number(command, key);
    place(command, number, command::argument(command, key), at, size);
    number
}

/// # Safety
/// As above.
#[no_mangle]
pub unsafe extern "C" fn second_integer(
    command: *const u8,
    length: usize,
    key: *const u8,
    key_length: usize,
    value: *mut i64,
) -> u32 {
    let command = from_raw_parts(command, length);
    let key = from_raw_parts(key, key_length);
    *value = command::integer(command, key);
    command::integer_number(command, key)
}

#[no_mangle]
pub extern "C" fn generated_new(seed: u64, index: u64) -> Box<Case> {
    Box::new(generate::case(seed, index))
}

#[no_mangle]
pub extern "C" fn generated_keys_new(seed: u64, index: u64) -> Box<Case> {
    Box::new(generate::key_command(seed, index))
}

#[no_mangle]
pub extern "C" fn generated_free(generated: Box<Case>) {
    drop(generated);
}

/// # Safety
/// `length` points to a place for a length.
#[no_mangle]
pub unsafe extern "C" fn generated_command(generated: &Case, length: *mut usize) -> *const u8 {
    *length = generated.command.len();
    generated.command.as_ptr()
}

/// # Safety
/// As above.
#[no_mangle]
pub unsafe extern "C" fn generated_key(generated: &Case, length: *mut usize) -> *const u8 {
    *length = generated.key.len();
    generated.key.as_ptr()
}
