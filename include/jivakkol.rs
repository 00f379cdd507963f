//! The exported entries for a host in Rust, as jivakkol.h has them for C.
extern "C" {
    pub fn jivakkol_dealias_sweep(
        rays: u32, gates: u32, nyquist: f32, interval_splits: u32, skip_between_rays: u32, skip_along_ray: u32,
        centered: u32, rays_wrap_around: u32, velocity: *const f32, velocity_len: usize, valid: *const u8, valid_len: usize,
        folds: *mut i32, folds_len: usize, doubtful: *mut u8, doubtful_len: usize, pair: *mut u32, pair_len: usize,
        work: *mut u32, work_len: usize, work_f64: *mut f64, work_f64_len: usize,
    ) -> u32;
    pub fn jivakkol_dealias_sweep_book(
        rays: u32, gates: u32, nyquist: f32, interval_splits: u32, skip_between_rays: u32, skip_along_ray: u32,
        centered: u32, rays_wrap_around: u32, velocity: *const f32, velocity_len: usize, valid: *const u8, valid_len: usize,
        folds: *mut i32, folds_len: usize, doubtful: *mut u8, doubtful_len: usize, pair: *mut u32, pair_len: usize,
        book: *mut i32, book_len: usize, work: *mut u32, work_len: usize, work_f64: *mut f64, work_f64_len: usize,
    ) -> u32;
    pub fn jivakkol_dealias_two(
        rays: u32, gates: u32, nyquist: f32, interval_splits: u32, skip_between_rays: u32, skip_along_ray: u32,
        centered: u32, rays_wrap_around: u32, h_velocity: *const f32, h_velocity_len: usize, h_valid: *const u8, h_valid_len: usize,
        v_velocity: *const f32, v_velocity_len: usize, v_valid: *const u8, v_valid_len: usize,
        h_folds: *mut i32, h_folds_len: usize, h_doubtful: *mut u8, h_doubtful_len: usize, h_pair: *mut u32, h_pair_len: usize,
        v_folds: *mut i32, v_folds_len: usize, v_doubtful: *mut u8, v_doubtful_len: usize, v_pair: *mut u32, v_pair_len: usize,
        work: *mut u32, work_len: usize, work_f64: *mut f64, work_f64_len: usize,
    ) -> u32;
    pub fn jivakkol_region_map(
        rays: u32, gates: u32, nyquist: f32, interval_splits: u32, skip_between_rays: u32, skip_along_ray: u32,
        centered: u32, rays_wrap_around: u32, velocity: *const f32, velocity_len: usize, valid: *const u8, valid_len: usize,
        labels: *mut u32, labels_len: usize, regions: *mut u32, regions_len: usize, work: *mut u32, work_len: usize,
        work_f64: *mut f64, work_f64_len: usize,
    ) -> u32;
    pub fn jivakkol_unfold_velocity(
        rays: u32, gates: u32, nyquist: f32, velocity: *const f32, velocity_len: usize, valid: *const u8, valid_len: usize,
        folds: *const i32, folds_len: usize, labels: *const u32, labels_len: usize, unfolded: *mut f64, unfolded_len: usize,
    ) -> u32;
    pub fn jivakkol_window_add(
        rays: u32, gates: u32, nyquist: f32, velocity: *const f32, velocity_len: usize, valid: *const u8, valid_len: usize,
        folds: *const i32, folds_len: usize, labels: *const u32, labels_len: usize,
        window: *mut u32, window_len: usize, winds: *mut f64, winds_len: usize, shown: *mut u8, shown_len: usize,
        picture: *mut f64, picture_len: usize, marks: *mut u8, marks_len: usize,
    ) -> u32;
    pub fn jivakkol_read_sweep(
        file: *const u8, file_len: usize, velocity_bits: *mut u32, velocity_len: usize, valid: *mut u8, valid_len: usize,
        header: *mut u32, header_len: usize,
    ) -> u32;
    pub fn jivakkol_write_sweep(
        rays: u32, gates: u32, nyquist: f32, interval_splits: u32, skip_between_rays: u32, skip_along_ray: u32,
        centered: u32, rays_wrap_around: u32, velocity_bits: *const u32, velocity_len: usize, valid: *const u8, valid_len: usize,
        file: *mut u8, file_len: usize,
    ) -> u32;
    pub fn jivakkol_sweep_size(file: *const u8, file_len: usize, size: *mut u32, size_len: usize) -> u32;
    pub fn jivakkol_test_sweep(
        rays: u32, gates: u32, state: *mut u32, state_len: usize, velocity: *mut f32, velocity_len: usize, valid: *mut u8, valid_len: usize,
    ) -> u32;
}
