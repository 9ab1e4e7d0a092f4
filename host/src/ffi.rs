//! The C interface of the proved library, as its header declares it. A call asks of its caller that each pointer and length are those of memory that is lent,
//! and that what it may write overlaps nothing else. The other modules pass slices, and pointers to numbers of their own: so their `unsafe` blocks are sound.

/// `gl_field_entry`
#[repr(C)]
#[derive(Clone, Copy, Debug, PartialEq, Eq)]
pub struct FieldEntry {
    pub name: [u8; 11],
    pub kind: u8,
    pub length: u8,
    pub decimals: u8,
    pub offset: u16,
}

/// `gl_position`
#[repr(C)]
#[derive(Clone, Copy, Debug, PartialEq, Eq)]
pub struct Position {
    pub passed: u32,
}

/// `GL_INTERFACE`: the interface that is declared here.
pub const INTERFACE: u32 = 4;

/// The answers beside 0 and the refusal numbers.
pub const EMPTY: u32 = 256;
pub const ABSENT: u32 = 257;
pub const DONE: u32 = 258;

extern "C" {
    pub fn gl_interface() -> u32;
    pub fn gl_table_check(table: *const u8, table_len: usize) -> u32;
    pub fn gl_table_shape(
        table: *const u8,
        table_len: usize,
        records: *mut u32,
        fields: *mut u32,
        record_length: *mut u32,
    ) -> u32;
    pub fn gl_fields(
        table: *const u8,
        table_len: usize,
        entries: *mut FieldEntry,
        entry_count: usize,
    ) -> u32;
    pub fn gl_walk(
        table: *const u8,
        table_len: usize,
        position: *mut Position,
        record: *mut u32,
        deleted: *mut u8,
    ) -> u32;
    pub fn gl_walk_live(
        table: *const u8,
        table_len: usize,
        position: *mut Position,
        record: *mut u32,
    ) -> u32;
    pub fn gl_table_lay_out(
        buffer: *mut u8,
        buffer_len: usize,
        entries: *const FieldEntry,
        entry_count: usize,
        year: u32,
        month: u32,
        day: u32,
    ) -> u32;
    pub fn gl_table_append(
        buffer: *mut u8,
        buffer_len: usize,
        table_len: usize,
        record: *const u8,
        record_len: usize,
        record_place: *mut u64,
        record_length: *mut u64,
        count_place: *mut u64,
        count_length: *mut u64,
    ) -> u32;
    pub fn gl_table_set_date(
        buffer: *mut u8,
        buffer_len: usize,
        table_len: usize,
        year: u32,
        month: u32,
        day: u32,
    ) -> u32;
    pub fn gl_table_extent(table: *const u8, table_len: usize, length: *mut u64) -> u32;
    pub fn gl_read_number(
        table: *const u8,
        table_len: usize,
        record: u32,
        field: u32,
        value: *mut i64,
    ) -> u32;
    pub fn gl_read_date(
        table: *const u8,
        table_len: usize,
        record: u32,
        field: u32,
        year: *mut u32,
        month: *mut u32,
        day: *mut u32,
    ) -> u32;
    pub fn gl_read_logical(
        table: *const u8,
        table_len: usize,
        record: u32,
        field: u32,
        value: *mut u8,
    ) -> u32;
    pub fn gl_text_part(
        table: *const u8,
        table_len: usize,
        memo: *const u8,
        memo_len: usize,
        record: u32,
        field: u32,
        start: *mut u64,
        length: *mut u64,
    ) -> u32;
    pub fn gl_number_read(text: *const u8, width: usize, decimals: u32, value: *mut i64) -> u32;
    pub fn gl_number_write(text: *mut u8, width: usize, decimals: u32, value: i64) -> u32;
    pub fn gl_index_fresh(
        index: *mut u8,
        index_len: usize,
        key_length: u32,
        features: u32,
        expression: *const u8,
        expression_len: usize,
    ) -> u32;
    pub fn gl_index_audit(index: *const u8, index_len: usize) -> u32;
    pub fn gl_index_lookup(
        index: *const u8,
        index_len: usize,
        key: *const u8,
        key_len: usize,
        record: *mut u32,
        pages: *mut u32,
    ) -> u32;
    pub fn gl_index_insert(
        index: *mut u8,
        index_len: usize,
        key: *const u8,
        key_len: usize,
        record: u32,
    ) -> u32;
    pub fn gl_index_remove(
        index: *mut u8,
        index_len: usize,
        key: *const u8,
        key_len: usize,
        record: u32,
    ) -> u32;
    pub fn gl_index_records(
        index: *const u8,
        index_len: usize,
        key: *const u8,
        key_len: usize,
        records: *mut u32,
        room: usize,
        count: *mut u32,
    ) -> u32;
    pub fn gl_match(
        table: *const u8,
        table_len: usize,
        index: *const u8,
        index_len: usize,
        field: u32,
    ) -> u32;
    pub fn gl_ndx_audit(index: *const u8, index_len: usize) -> u32;
    pub fn gl_ndx_lookup(
        index: *const u8,
        index_len: usize,
        key: *const u8,
        key_len: usize,
        record: *mut u32,
        pages: *mut u32,
    ) -> u32;
    pub fn gl_dilute(
        table: *const u8,
        table_len: usize,
        index: *const u8,
        index_len: usize,
        barcode_field: u32,
        concentration_field: u32,
        barcode: *const u8,
        barcode_len: usize,
        target: u64,
        final_volume: u64,
        sample: *mut u32,
        diluent: *mut u32,
    ) -> u32;
}
