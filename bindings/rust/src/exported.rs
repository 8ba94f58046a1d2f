//! The calls of the archive that are made here, as include/softdemap.h declares them: all but `softdemap_frame`, which is `softdemap_frame_weighted` with an empty
//! list of weights. Each buffer is a pointer and the number of its entries.

extern "C" {
    pub fn softdemap_sizes(
        kind: u8,
        bits_i: u8,
        bits_q: u8,
        payload: u16,
        weight: u16,
        shift: u8,
        limit: u16,
        symbols: *mut u32,
        quadrature: *mut u32,
        probes: *mut u32,
        line: *mut u32,
        answer: *mut u32,
    ) -> u32;

    pub fn softdemap_frame_weighted(
        kind: u8,
        bits_i: u8,
        bits_q: u8,
        payload: u16,
        weight: u16,
        shift: u8,
        limit: u16,
        gains: *const u16,
        gains_len: usize,
        weights: *const u16,
        weights_len: usize,
        yi: *const i32,
        yi_len: usize,
        yq: *const i32,
        yq_len: usize,
        hard: *mut u8,
        hard_len: usize,
        soft: *mut i16,
        soft_len: usize,
        probe_index: *mut u8,
        probe_index_len: usize,
        probe_cost: *mut i64,
        probe_cost_len: usize,
    ) -> u64;

    pub fn softdemap_map(
        kind: u8,
        bits_i: u8,
        bits_q: u8,
        gain: u16,
        bits: *const u8,
        bits_len: usize,
        yi: *mut i32,
        yi_len: usize,
        yq: *mut i32,
        yq_len: usize,
    ) -> u32;

    pub fn softdemap_line(line: *const u8, line_len: usize, answer: *mut u8, answer_len: usize) -> u32;

    pub fn softdemap_sample_i32(scale: u8, x: f32, y: *mut i32) -> u32;

    pub fn softdemap_quadrature_i32(scale: u8, in_phase: f32, quadrature: f32, yi: *mut i32, yq: *mut i32) -> u32;

    pub fn softdemap_samples_i32(
        kind: u8,
        scale: u8,
        capture: *const f32,
        capture_len: usize,
        yi: *mut i32,
        yi_len: usize,
        yq: *mut i32,
        yq_len: usize,
    ) -> u64;

    pub fn softdemap_soft_f32(scale: u8, soft: i16, x: *mut f32) -> u32;

    pub fn softdemap_softs_f32(scale: u8, soft: *const i16, soft_len: usize, x: *mut f32, x_len: usize) -> u32;
}
