//! The stages of a sweep call, as crates/stages/src/lib.rt declares them.
extern "C" {
    pub fn stage_questions(
        rays: u32, gates: u32, nyquist: f32, splits: u32, skip_between_rays: u32, skip_along_ray: u32, centred: u32, wrap: u32,
        velocity: *const f32, velocity_len: usize, valid: *const u8, valid_len: usize, words: usize, floats: usize,
    ) -> u32;
    pub fn stage_range(velocity: *const f32, velocity_len: usize, valid: *const u8, valid_len: usize) -> u32;
    pub fn stage_limits(
        nyquist: f32, splits: u32, velocity: *const f32, velocity_len: usize, valid: *const u8, valid_len: usize, out: *mut f64, out_len: usize,
    ) -> usize;
    pub fn stage_labels(
        gates: u32, velocity: *const f32, velocity_len: usize, valid: *const u8, valid_len: usize,
        limits: *const f64, limits_len: usize, work: *mut u32, work_len: usize,
    ) -> u32;
    pub fn stage_looks(
        rays: usize, gates: usize, skip_between_rays: usize, skip_along_ray: usize, wrap: u32, work: *mut u32, work_len: usize, n: usize,
    ) -> usize;
    pub fn stage_sort(work: *mut u32, work_len: usize, n: usize, m: usize, k: usize);
    pub fn stage_count(work: *const u32, work_len: usize, n: usize, m: usize) -> usize;
    pub fn stage_edges(
        work: *mut u32, work_len: usize, floats: *mut f64, floats_len: usize, velocity: *const f32, velocity_len: usize,
        n: usize, m: usize, t: usize, c: usize, two_nyquist: f64,
    ) -> usize;
    pub fn stage_sizes(work: *mut u32, work_len: usize, n: usize, at: usize, k: usize);
    pub fn stage_copy(work: *mut u32, work_len: usize, src: usize, dst: usize, len: usize);
    pub fn stage_merges(tables: *mut u32, tables_len: usize, floats: *mut f64, floats_len: usize, e: usize, v: usize) -> u32;
    pub fn stage_doubtful(q: f64) -> u32;
    pub fn stage_output(
        work: *const u32, work_len: usize, n: usize, k: usize, valid: *const u8, valid_len: usize, centred: u32,
        folds: *mut i32, folds_len: usize, doubtful: *mut u8, doubtful_len: usize,
    );
    pub fn stage_clear(work: *mut u32, work_len: usize, floats: *mut f64, floats_len: usize);
}
