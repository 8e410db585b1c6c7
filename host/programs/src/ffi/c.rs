//! The functions of the library, as `include/rootmap.h` declares them.

use super::view::Row;

#[rustfmt::skip]
extern "C" {
    pub fn rootmap_version() -> u64;

    pub fn rootmap_pack_date(
        year: u32, month: u32, day: u32, hour: u32, minute: u32, second: u32,
        place: *mut u64, count: *mut u64,
    ) -> u64;

    pub fn rootmap_unpack_date(packed: u32, fields: *mut u32);

    pub fn rootmap_read_piece(
        file: *const u8, file_len: usize, at: u64, fields: *mut u64,
        place: *mut u64, count: *mut u64,
    ) -> u64;

    pub fn rootmap_write_key(
        nbytes: u32, version: u32, objlen: u32, datime: u32, cycle: i32, seek_key: u64, seek_pdir: u64,
        class_name: *const u8, class_len: usize, name: *const u8, name_len: usize,
        title: *const u8, title_len: usize, buf: *mut u8, buf_len: usize,
        place: *mut u64, count: *mut u64,
    ) -> u64;

    pub fn rootmap_audit(
        file: *const u8, file_len: usize, start: *mut u64, start_len: usize,
        part: *mut u64, part_len: usize, owner: *mut u64, owner_len: usize,
        place: *mut u64, count: *mut u64,
    ) -> u64;

    pub fn rootmap_audit_salvaged(
        file: *const u8, file_len: usize, start: *mut u64, start_len: usize,
        part: *mut u64, part_len: usize, owner: *mut u64, owner_len: usize,
        place: *mut u64, count: *mut u64,
    ) -> u64;

    pub fn rootmap_salvage(
        buf: *mut u8, buf_len: usize, seen: *mut u8, seen_len: usize,
        place: *mut u64, count: *mut u64,
    ) -> u64;

    pub fn rootmap_card_write(
        file: *const u8, file_len: usize, card: *mut u8, card_len: usize, start: *mut u64, start_len: usize,
        part: *mut u64, part_len: usize, owner: *mut u64, owner_len: usize,
        place: *mut u64, count: *mut u64,
    ) -> u64;

    pub fn rootmap_card_read(
        card: *const u8, card_len: usize, out: *mut u8, out_len: usize,
        place: *mut u64, count: *mut u64,
    ) -> u64;

    pub fn rootmap_view(
        file: *const u8, file_len: usize, start: *mut u64, start_len: usize,
        part: *mut u64, part_len: usize, owner: *mut u64, owner_len: usize,
        list: *mut Row, list_len: usize,
        place: *mut u64, count: *mut u64,
    ) -> u64;

    pub fn rootmap_info(
        file: *const u8, file_len: usize, at: u64, table: *mut u32, table_len: usize,
        place: *mut u64, count: *mut u64,
    ) -> u64;
}
