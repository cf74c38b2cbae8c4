//! The calls of `libnetbuff.a` as `include/netbuff.h` declares them: same names, same parameters in
//! the same order, a list as a pointer and the number of its elements. What each call means, the
//! lengths that fit and the refusals stand there; the crate `netbuff` has all of it as safe calls.
//!
//! # Safety
//!
//! Every pointer is valid and aligned for the call, that of a list for all its elements; none is
//! null, not even that of a list without elements. What a call writes, lists and results alike,
//! overlaps nothing else that is lent to it. A call keeps no pointer, has no state of its own and
//! takes no memory from the heap, so calls may be made from any number of threads.
//!
//! # Linking
//!
//! The build script looks for `libnetbuff.a` in the folder that `NETBUFF_LIB_DIR` names, or else in
//! `target/staticlib` of the repository, where `.ci/archive` writes it. The archive is for Linux on
//! x86-64.

#![no_std]
#![deny(missing_docs)]

extern "C" {
    /// The version of the library: major × 1,000,000 + minor × 1,000 + patch.
    pub fn netbuff_version() -> u32;

    /// What a transform's number carries.
    pub fn netbuff_transform(
        number: u32,
        wide: *mut usize,
        high: *mut usize,
        order: *mut usize,
        turn: *mut bool,
        x: *mut usize,
        y: *mut usize,
    ) -> u32;

    /// One read of bits.
    pub fn netbuff_read_bits(
        bytes: *const u8,
        bytes_length: usize,
        byte: usize,
        bit: u32,
        n: u32,
        value: *mut u32,
        next_byte: *mut usize,
        next_bit: *mut u32,
        taken: *mut u32,
    ) -> u32;

    /// A U32: `choices` are four pairs of an offset and a number of bits.
    pub fn netbuff_read_u32(
        bytes: *const u8,
        bytes_length: usize,
        byte: usize,
        bit: u32,
        choices: *const [u32; 8],
        value: *mut u32,
        next_byte: *mut usize,
        next_bit: *mut u32,
        taken: *mut u32,
    ) -> u32;

    /// The signed number of a packed one.
    pub fn netbuff_unpack_signed(u: u32) -> i32;

    /// The column count of an LF group.
    pub fn netbuff_column_count(
        bytes: *const u8,
        bytes_length: usize,
        width: u32,
        height: u32,
        mode0: u32,
        mode1: u32,
        mode2: u32,
        count: *mut u32,
        bits: *mut usize,
        x: *mut usize,
        y: *mut usize,
    ) -> u32;

    /// The layout and filter strengths of an LF group.
    pub fn netbuff_layout(
        width: u32,
        height: u32,
        mode0: u32,
        mode1: u32,
        mode2: u32,
        types: *const i32,
        types_length: usize,
        muls: *const i32,
        muls_length: usize,
        sharpness: *const i32,
        sharpness_length: usize,
        filter_on: bool,
        multiplier: f32,
        lookup: *const [f32; 8],
        scale: u32,
        kinds: *mut u8,
        kinds_length: usize,
        hf_mul: *mut i32,
        hf_mul_length: usize,
        sigma: *mut f32,
        sigma_length: usize,
        used: *mut usize,
        x: *mut usize,
        y: *mut usize,
    ) -> u32;

    /// The orders of a pass.
    pub fn netbuff_orders(
        bytes: *const u8,
        bytes_length: usize,
        symbols: *const u32,
        symbols_length: usize,
        store: *mut u16,
        store_length: usize,
        symbols_read: *mut usize,
        x: *mut usize,
        y: *mut usize,
    ) -> u32;

    /// Cuts a pass group out of a layout.
    pub fn netbuff_cut(
        bw: usize,
        bh: usize,
        kinds: *const u8,
        kinds_length: usize,
        hf_mul: *const i32,
        hf_mul_length: usize,
        index: usize,
        out_kinds: *mut u8,
        out_kinds_length: usize,
        out_hf_mul: *mut i32,
        out_hf_mul_length: usize,
        out_bw: *mut usize,
        out_bh: *mut usize,
        x: *mut usize,
        y: *mut usize,
    ) -> u32;

    /// Whether two layouts have the same varblocks and the same sigma to the bit.
    pub fn netbuff_alike(
        bw: usize,
        bh: usize,
        kinds: *const u8,
        kinds_length: usize,
        hf_mul: *const i32,
        hf_mul_length: usize,
        sigma: *const f32,
        sigma_length: usize,
        bw2: usize,
        bh2: usize,
        kinds2: *const u8,
        kinds2_length: usize,
        hf_mul2: *const i32,
        hf_mul2_length: usize,
        sigma2: *const f32,
        sigma2_length: usize,
        alike: *mut bool,
        x: *mut usize,
        y: *mut usize,
    ) -> u32;

    /// The block contexts of a frame.
    pub fn netbuff_block_context(
        bytes: *const u8,
        bytes_length: usize,
        num_clusters: u32,
        map: *const u8,
        map_length: usize,
        num_block_clusters: *mut u32,
        lengths: *mut [u32; 4],
        lf_thresholds: *mut [i32; 45],
        qf_thresholds: *mut [u32; 15],
        block_ctx_map: *mut [u8; 2496],
        bits_read: *mut usize,
        x: *mut usize,
        y: *mut usize,
    ) -> u32;

    /// Where the list of an order and channel stands in a store.
    pub fn netbuff_order(
        store: *const u16,
        store_length: usize,
        order: usize,
        channel: usize,
        first: *mut usize,
        count: *mut usize,
    );

    /// Whether a store has its length and every place is inside its order's size.
    pub fn netbuff_places_fit(store: *const u16, store_length: usize) -> bool;

    /// The coefficients of a pass group.
    pub fn netbuff_coefficients(
        bw: usize,
        bh: usize,
        kinds: *const u8,
        kinds_length: usize,
        hf_mul: *const i32,
        hf_mul_length: usize,
        num_block_clusters: u32,
        lengths: *const [u32; 4],
        lf_thresholds: *const [i32; 45],
        qf_thresholds: *const [u32; 15],
        block_ctx_map: *const [u8; 2496],
        lf_there: bool,
        lf0: *const i32,
        lf0_length: usize,
        lf1: *const i32,
        lf1_length: usize,
        lf2: *const i32,
        lf2_length: usize,
        store: *const u16,
        store_length: usize,
        presets: u32,
        cluster_map: *const u8,
        cluster_map_length: usize,
        shift: u32,
        bytes: *const u8,
        bytes_length: usize,
        symbols: *const u32,
        symbols_length: usize,
        log: *mut u8,
        log_length: usize,
        grid0: *mut i32,
        grid0_length: usize,
        grid1: *mut i32,
        grid1_length: usize,
        grid2: *mut i32,
        grid2_length: usize,
        symbols_read: *mut usize,
        x: *mut usize,
        y: *mut usize,
    ) -> u32;

    /// The context number of a coefficient.
    pub fn netbuff_coefficient_context(
        blocks: u32,
        count: u32,
        place: u32,
        prev: u32,
        context: *mut u32,
        x: *mut usize,
        y: *mut usize,
    ) -> u32;
}
