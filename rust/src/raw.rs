//! The functions of `libdirmoog_c.a` as `include/dirmoog.h` declares them. A slice is a pointer and a length.
//!
//! Each pointer must be valid for its length, also where that is 0, and what is written must
//! overlap nothing else that is lent. The functions ask for nothing more but stack: 32 KiB are
//! enough, and nothing checks it (the header has the figures).
//!
//! What fits into `out` is written, and the rest is lost: one of 1 entry loses the ring's length
//! ([`dirmoog_layout`]), the denominator ([`dirmoog_slack`]), the count of gaps or, of a refused text,
//! the bad field ([`dirmoog_read`]); an empty one loses all but the number that is returned.

extern "C" {
    pub fn dirmoog_layout(
        wanted: *const i64,
        wanted_len: usize,
        weight: *const i64,
        weight_len: usize,
        left: *const u64,
        left_len: usize,
        right: *const u64,
        right_len: usize,
        distance: *const i64,
        distance_len: usize,
        kind: *const u8,
        kind_len: usize,
        carried: *mut u8,
        carried_len: usize,
        place_num: *mut i64,
        place_num_len: usize,
        place_den: *mut i64,
        place_den_len: usize,
        mult_num: *mut i64,
        mult_num_len: usize,
        mult_den: *mut i64,
        mult_den_len: usize,
        ring: *mut u64,
        ring_len: usize,
        back: *mut u8,
        back_len: usize,
        out: *mut u64,
        out_len: usize,
    ) -> u64;

    pub fn dirmoog_round(num: i64, den: i64, out: *mut i64, out_len: usize) -> u64;

    pub fn dirmoog_round_half_up(num: i64, den: i64, out: *mut i64, out_len: usize) -> u64;

    pub fn dirmoog_slack(
        left_num: i64,
        left_den: i64,
        right_num: i64,
        right_den: i64,
        distance: i64,
        out: *mut i64,
        out_len: usize,
    ) -> u64;

    pub fn dirmoog_read(
        text: *const u8,
        text_len: usize,
        wanted: *mut i64,
        wanted_len: usize,
        weight: *mut i64,
        weight_len: usize,
        left: *mut u64,
        left_len: usize,
        right: *mut u64,
        right_len: usize,
        distance: *mut i64,
        distance_len: usize,
        kind: *mut u8,
        kind_len: usize,
        out: *mut u64,
        out_len: usize,
    ) -> u64;

    pub fn dirmoog_listing(
        number: u64,
        place: u64,
        field: u64,
        place_num: *const i64,
        place_num_len: usize,
        place_den: *const i64,
        place_den_len: usize,
        left: *const u64,
        left_len: usize,
        right: *const u64,
        right_len: usize,
        distance: *const i64,
        distance_len: usize,
        text: *mut u8,
        text_len: usize,
        out: *mut u64,
        out_len: usize,
    ) -> u64;
}
