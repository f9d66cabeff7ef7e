//! The exports answered by the reference itself. With it a test can be tried without the
//! library, on any computer: the generated cases for what they cover, the written answers
//! against a second reading of the document.

#[path = "../bindings/rust/src/exports.rs"]
mod exports;
#[path = "reference.rs"]
mod reference;

use reference::{pack, Counted};

/// Each definition below has the type of its declaration: functions of different types make no array.
const _: () = {
    let _ = [abwakiris_read_device, exports::abwakiris_read_device];
    let _ = [abwakiris_read_program, exports::abwakiris_read_program];
    let _ = [abwakiris_check, exports::abwakiris_check];
    let _ = [abwakiris_route, exports::abwakiris_route];
    let _ = [abwakiris_run, exports::abwakiris_run];
    let _ = [abwakiris_write_listing, exports::abwakiris_write_listing];
    let _ = [abwakiris_read_listing, exports::abwakiris_read_listing];
};

/// A length of 0 goes with any pointer, so the pointer is not looked at then.
unsafe fn slice<'a>(pointer: *const u8, length: usize) -> &'a [u8] {
    if length == 0 { &[] } else { std::slice::from_raw_parts(pointer, length) }
}

unsafe fn slice_mut<'a>(pointer: *mut u8, length: usize) -> &'a mut [u8] {
    if length == 0 { &mut [] } else { std::slice::from_raw_parts_mut(pointer, length) }
}

#[no_mangle]
unsafe extern "C" fn abwakiris_read_device(device: *const u8, device_len: usize) -> u64 {
    pack(reference::read_device(slice(device, device_len)).map(|device| device.owner.len() as u64))
}

#[no_mangle]
unsafe extern "C" fn abwakiris_read_program(program: *const u8, program_len: usize) -> u64 {
    pack(reference::read_program(slice(program, program_len)).map(|_| 0))
}

#[no_mangle]
unsafe extern "C" fn abwakiris_check(
    device: *const u8,
    device_len: usize,
    program: *const u8,
    program_len: usize,
    job: u64,
) -> u64 {
    pack(reference::check(slice(device, device_len), slice(program, program_len), job).map(Counted::value))
}

#[no_mangle]
unsafe extern "C" fn abwakiris_route(
    device: *const u8,
    device_len: usize,
    job: u64,
    occupancy: *const u8,
    occupancy_len: usize,
    first: u64,
    second: u64,
    buffer: *mut u8,
    buffer_len: usize,
) -> u64 {
    let answer = reference::route(
        slice(device, device_len),
        job,
        slice(occupancy, occupancy_len),
        first,
        second,
        slice_mut(buffer, buffer_len),
    );
    pack(answer.map(|locations| locations as u64))
}

#[no_mangle]
unsafe extern "C" fn abwakiris_run(
    device: *const u8,
    device_len: usize,
    first_program: *const u8,
    first_program_len: usize,
    second_program: *const u8,
    second_program_len: usize,
    schedule: *const u8,
    schedule_len: usize,
    records: *mut u8,
    records_len: usize,
    map: *mut u8,
    map_len: usize,
) -> u64 {
    let answer = reference::run(
        slice(device, device_len),
        slice(first_program, first_program_len),
        slice(second_program, second_program_len),
        slice(schedule, schedule_len),
        slice_mut(records, records_len),
        slice_mut(map, map_len),
    );
    pack(answer.map(|(one, two)| u64::from(one) + 65_536 * u64::from(two)))
}

#[no_mangle]
unsafe extern "C" fn abwakiris_write_listing(program: *const u8, program_len: usize, text: *mut u8, text_len: usize) -> u64 {
    let answer = reference::listing::write_listing(slice(program, program_len), slice_mut(text, text_len));
    pack(answer.map(|bytes| bytes as u64))
}

#[no_mangle]
unsafe extern "C" fn abwakiris_read_listing(text: *const u8, text_len: usize, program: *mut u8, program_len: usize) -> u64 {
    let answer = reference::listing::read_listing(slice(text, text_len), slice_mut(program, program_len));
    pack(answer.map(|bytes| bytes as u64))
}
