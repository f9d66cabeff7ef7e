//! The exports, as `include/abwakiris.h` declares them. This is their one declaration in Rust: the tests and the benchmarks take it from
//! here by its path.

#![allow(dead_code)] // who takes it by its path may call some of them only

extern "C" {
    pub fn abwakiris_read_device(device: *const u8, device_len: usize) -> u64;
    pub fn abwakiris_read_program(program: *const u8, program_len: usize) -> u64;
    pub fn abwakiris_check(device: *const u8, device_len: usize, program: *const u8, program_len: usize, job: u64) -> u64;
    pub fn abwakiris_route(
        device: *const u8,
        device_len: usize,
        job: u64,
        occupancy: *const u8,
        occupancy_len: usize,
        first: u64,
        second: u64,
        buffer: *mut u8,
        buffer_len: usize,
    ) -> u64;
    pub fn abwakiris_run(
        device: *const u8,
        device_len: usize,
        first_program: *const u8,
        first_len: usize,
        second_program: *const u8,
        second_len: usize,
        schedule: *const u8,
        schedule_len: usize,
        records: *mut u8,
        records_len: usize,
        map: *mut u8,
        map_len: usize,
    ) -> u64;
    pub fn abwakiris_write_listing(program: *const u8, program_len: usize, text: *mut u8, text_len: usize) -> u64;
    pub fn abwakiris_read_listing(text: *const u8, text_len: usize, program: *mut u8, program_len: usize) -> u64;
}
