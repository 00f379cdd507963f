/* The exported entries of Jivakkol: fold counts and marks of a radar sweep, its merge book, the same of two channels at once, its region map, its
 * unfolded velocities, the wind over the last sweeps, sweep files, and test sweeps.
 *
 * Every slice is a pointer and a length. What a host must see to: no slice that a call writes overlaps another that it is given; memory is
 * initialised, and no other thread uses it while the call lasts (calls on different memory may run at once); the thread has about 80 KB of stack
 * left; the processor rounds to nearest and does not flush subnormals.
 * For each input the answer and all memory lent are what crates/sweep/specs/Call.antt (`call`), crates/sweep_book/specs/Book.antt (`callBook`),
 * crates/channels/specs/Call.antt (`callTwo`), crates/map/specs/Map.antt (`callMap`), crates/sweep/specs/Velocity.antt (`callVelocity`),
 * crates/window/specs/Window.antt (`callWindow`), crates/files/specs/Calls.antt (`callRead`, `callWrite`, `callSize`) and
 * crates/test_sweep/specs/Call.antt (`callTest`) say.
 */
#ifndef JIVAKKOL_H
#define JIVAKKOL_H

#include <stddef.h>
#include <stdint.h>

#ifdef __cplusplus
extern "C" {
#endif

/* The largest sweep: so many rays, of so many gates each. */
#define JIVAKKOL_MOST_RAYS 720
#define JIVAKKOL_MOST_GATES 1200

/* Work memory that a sweep of n gates asks for. */
#define JIVAKKOL_WORK_WORDS(n) (96 * (size_t)(n) + 64)
#define JIVAKKOL_WORK_FLOATS(n) (16 * (size_t)(n) + 16)

/* The numbers of a merge book where a sweep has so many regions; it has no more than gates. */
#define JIVAKKOL_BOOK_NUMBERS(regions) (6 * ((size_t)(regions) - ((regions) > 0)))

/* The length of a sweep file. */
#define JIVAKKOL_FILE_BYTES(rays, gates) (18 + (size_t)(rays) * (3 + 5 * (size_t)(gates)))

/* The fold count of each gate, and whether it is doubtful; pair gets the number of regions and the number of merges.
 *
 * velocity, valid (1 where a gate has a velocity, 0 where it is masked), folds and doubtful have rays * gates elements, ray by ray; pair has 2.
 * doubtful gets 1 where the fold of the gate's region hung on a near tie, so that one fold more or less was almost as likely: the region was in
 * the moved node of a merge whose difference, in folds, was within one sixteenth of a whole number plus a half. All other gates get 0.
 * interval_splits is 1 to 9,999; both skips are 0 to 1,000; centered and rays_wrap_around are 0 or 1.
 * Answers 0, or the number of the first question that got a no, with folds, doubtful and pair unchanged:
 *   1 rays above 720 or gates above 1,200      2 a slice of another length      3 a mask byte other than 0 and 1
 *   4 too little work memory                   5 Nyquist not 0.125 to 1,024     6 an option out of its range
 *   7 a valid velocity not -16,384 to 16,384   8 more than 10,000 limits        9 a merge whose rounded difference, or a count, is beyond 1,000
 * After 0 and 9 the asked words of work memory are zero and any further ones unchanged; after 1 to 8 all are unchanged. */
uint32_t jivakkol_dealias_sweep(
    uint32_t rays, uint32_t gates, float nyquist,
    uint32_t interval_splits, uint32_t skip_between_rays, uint32_t skip_along_ray,
    uint32_t centered, uint32_t rays_wrap_around,
    const float *velocity, size_t velocity_len, const uint8_t *valid, size_t valid_len,
    int32_t *folds, size_t folds_len, uint8_t *doubtful, size_t doubtful_len, uint32_t *pair, size_t pair_len,
    uint32_t *work, size_t work_len, double *work_f64, size_t work_f64_len);

/* jivakkol_dealias_sweep with a merge book: book gets six numbers for each merge, in the order of the merges.
 *   base           the node that the other was merged into; it keeps its number
 *   moved node     a node's number is the label of the region that it began as (jivakkol_region_map)
 *   weight         the pairs of the edge between the two nodes, edges that it took up included
 *   bridged pairs  how many of these were seen over gates without a label
 *   folds moved    what the count of every gate of the moved node gains, before centering; may be negative or 0
 *   gates moved    the gates of the moved node, also where folds moved is 0
 * The entries, done in order over the region map with all counts 0, give the counts before centering. Elements of book past the last merge's
 * are unchanged. It must have JIVAKKOL_BOOK_NUMBERS(regions), also where fewer regions merge; with rays * gates in their place it is always long enough.
 * Answers and leaves what jivakkol_dealias_sweep does, any refusal leaving book unchanged too, but for one more number, after 8 and before 9:
 *   13 book has room for fewer entries than regions less one
 * After 13 folds, doubtful and pair are unchanged, and work memory is as after 9. Question 2 does not ask the length of book. */
uint32_t jivakkol_dealias_sweep_book(
    uint32_t rays, uint32_t gates, float nyquist,
    uint32_t interval_splits, uint32_t skip_between_rays, uint32_t skip_along_ray,
    uint32_t centered, uint32_t rays_wrap_around,
    const float *velocity, size_t velocity_len, const uint8_t *valid, size_t valid_len,
    int32_t *folds, size_t folds_len, uint8_t *doubtful, size_t doubtful_len, uint32_t *pair, size_t pair_len,
    int32_t *book, size_t book_len, uint32_t *work, size_t work_len, double *work_f64, size_t work_f64_len);

/* jivakkol_dealias_sweep of two channels at once, horizontal and vertical, which one antenna measured with the same rays, gates and Nyquist velocity.
 *
 * Shared are the sizes, Nyquist, the options, the work memory and the limits: they come from the least and the greatest valid velocity of both
 * channels together, so that an interval is the same in both. If neither channel has a valid velocity they are as for a sweep that has none.
 * All else is each channel's own: regions, looks, merges, the offset of centering, folds, doubtful and pair are what jivakkol_dealias_sweep gives for
 * that channel by the shared limits. Of the other channel nothing but its least and its greatest valid velocity has a part in them.
 * h_velocity, h_valid, h_folds, h_doubtful and h_pair are horizontal's slices, those with v_ vertical's, with lengths as for jivakkol_dealias_sweep. The work
 * memory asked for is that of one channel's gates.
 * Answers 0, or the number of the first question that got a no, with folds, doubtful and pair of both channels unchanged. Questions 1 to 7, as above, are
 * put to horizontal, and when all got a yes to vertical: 2, 3 and 7 to the channel's own slices. Then 8 is put to the shared limits; then 9 to horizontal,
 * and to vertical. So a number does not say which channel it was.
 * After 0 and 9 the asked words of work memory are zero and any further ones unchanged; after 1 to 8 all are unchanged. */
uint32_t jivakkol_dealias_two(
    uint32_t rays, uint32_t gates, float nyquist,
    uint32_t interval_splits, uint32_t skip_between_rays, uint32_t skip_along_ray,
    uint32_t centered, uint32_t rays_wrap_around,
    const float *h_velocity, size_t h_velocity_len, const uint8_t *h_valid, size_t h_valid_len,
    const float *v_velocity, size_t v_velocity_len, const uint8_t *v_valid, size_t v_valid_len,
    int32_t *h_folds, size_t h_folds_len, uint8_t *h_doubtful, size_t h_doubtful_len, uint32_t *h_pair, size_t h_pair_len,
    int32_t *v_folds, size_t v_folds_len, uint8_t *v_doubtful, size_t v_doubtful_len, uint32_t *v_pair, size_t v_pair_len,
    uint32_t *work, size_t work_len, double *work_f64, size_t work_f64_len);

/* The region map: the label of each gate, 0 where it has none; regions gets the number of regions.
 *
 * Two gates share a label other than 0 exactly if a path of valid neighbours along and across rays, all inside one interval between
 * limits, joins them; the first ray does not adjoin the last here. Labels are 1 to the number of regions, interval by interval, and in an
 * interval by first gate. The sweep entry's looks, merges and counts speak of these regions.
 * labels has rays * gates elements, regions has 1; all else is as for jivakkol_dealias_sweep, and options that labels do not depend on
 * (skips, centering, wrap) must be in their ranges too.
 * Answers 0, or the number of the first of questions 1 to 8 that got a no, with everything lent unchanged; 9 is not asked.
 * After 0 the asked words of work memory are zero and any further ones unchanged. */
uint32_t jivakkol_region_map(
    uint32_t rays, uint32_t gates, float nyquist,
    uint32_t interval_splits, uint32_t skip_between_rays, uint32_t skip_along_ray,
    uint32_t centered, uint32_t rays_wrap_around,
    const float *velocity, size_t velocity_len, const uint8_t *valid, size_t valid_len,
    uint32_t *labels, size_t labels_len, uint32_t *regions, size_t regions_len,
    uint32_t *work, size_t work_len, double *work_f64, size_t work_f64_len);

/* The wind over each gate: velocity + folds * 2 * nyquist at a valid gate that lies in a region, and 0 at any other.
 *
 * labels are the sweep's, from jivakkol_region_map: a valid gate of label 0 lies in no region; it shows no wind, whatever its count.
 * Any label but 0 counts as a region. All five slices have rays * gates elements.
 * Answers 0, or 1, 2 (these five slices), 3, 5, 7 (of every valid gate) as above, or 10 where a valid gate that lies in a region has a count
 * not -2,000 to 2,000; a refusal leaves unfolded unchanged. Folds and labels that the two entries left for one sweep are never refused. */
uint32_t jivakkol_unfold_velocity(
    uint32_t rays, uint32_t gates, float nyquist,
    const float *velocity, size_t velocity_len, const uint8_t *valid, size_t valid_len,
    const int32_t *folds, size_t folds_len, const uint32_t *labels, size_t labels_len, double *unfolded, size_t unfolded_len);

/* The sweeps that a window holds at most. */
#define JIVAKKOL_WINDOW_PLACES 8

/* The wind over the last sweeps: a sweep's winds taken into a window of at most eight, and the picture of their medians.
 *
 * rays to labels are the input of jivakkol_unfold_velocity. The window is of one size, m = rays * gates of its own: window has 4 words, its rays, its gates
 * per ray, the sweeps held (0 to 8) and the next place (0 to 7); winds and shown have 8 * m elements, eight places of m gates; picture and marks have m.
 * To begin, write the size and two zeros into window; winds, shown, picture and marks may hold anything. From then on only these calls write them.
 * An accepted sweep takes the next place, and with it that of the oldest where eight are held; no sweep is moved. Each gate of the picture gets the median of the
 * winds that it shows in the sweeps held, of an even number the lower of the two middle ones, and mark 0; where it shows none, 0 and mark 1.
 * Nyquist may differ from sweep to sweep; a sweep that is masked all over counts as one.
 * Answers 0, or the number of the first question that got a no, with all five unchanged:
 *   1 rays above 720 or gates above 1,200, of the sweep or of the window      2 a slice of another length, more than eight held, or a next place above 7
 *   3, 5, 7, 10 as jivakkol_unfold_velocity      14 a sweep of other rays or gates than the window's */
uint32_t jivakkol_window_add(
    uint32_t rays, uint32_t gates, float nyquist,
    const float *velocity, size_t velocity_len, const uint8_t *valid, size_t valid_len,
    const int32_t *folds, size_t folds_len, const uint32_t *labels, size_t labels_len,
    uint32_t *window, size_t window_len, double *winds, size_t winds_len, uint8_t *shown, size_t shown_len,
    double *picture, size_t picture_len, uint8_t *marks, size_t marks_len);

/* The sweep of a file: velocity_bits gets the bits of each gate's velocity, valid its mask byte, and header eight numbers: rays, gates,
 * Nyquist's bits, interval_splits, skip_between_rays, skip_along_ray, centered, rays_wrap_around.
 *
 * A file is fields, one after another: a byte of tag, two of length, then the contents; numbers stand high byte first.
 *   tag 1, first, 15 bytes: rays 2, gates 2, Nyquist as an f32 4, splits 2, skip between rays 2, skip along a ray 2, and a byte of options:
 *                           bit 0 centring, bit 1 wrap, the others zero
 *   tag 2, one a ray, 5 bytes for each gate: the mask byte, and the velocity as an f32
 * velocity_bits and valid have rays * gates elements (jivakkol_sweep_size tells how many), header has 8.
 * Answers 0; or 2 for a header of another length, before all else and with all that is lent unchanged; or, with velocity_bits and valid
 * unchanged and the header all 0, the number of the first fault in file order:
 *   11 a field missing, cut short or of the wrong length      12 a wrong tag, a set spare bit, or bytes after the last ray
 *   1 as above, when the first field is whole and before the rays are read
 * or, where the file has none, of the first of questions 2, 3, 5, 6 and 7 that got a no.
 * An accepted file is the only one for its sweep. */
uint32_t jivakkol_read_sweep(
    const uint8_t *file, size_t file_len, uint32_t *velocity_bits, size_t velocity_len, uint8_t *valid, size_t valid_len,
    uint32_t *header, size_t header_len);

/* The file of a sweep, which jivakkol_read_sweep reads back bit for bit.
 *
 * velocity_bits, an f32's bits for each gate, and valid have rays * gates elements; file has JIVAKKOL_FILE_BYTES(rays, gates).
 * Answers 0, or the number of the first of questions 1, 2 (these three slices), 3, 5, 6 and 7 that got a no, with file unchanged. */
uint32_t jivakkol_write_sweep(
    uint32_t rays, uint32_t gates, float nyquist,
    uint32_t interval_splits, uint32_t skip_between_rays, uint32_t skip_along_ray,
    uint32_t centered, uint32_t rays_wrap_around,
    const uint32_t *velocity_bits, size_t velocity_len, const uint8_t *valid, size_t valid_len, uint8_t *file, size_t file_len);

/* Rays and gates, as a file's first field says them, into the 2 elements of size; what follows that field is not looked at.
 *
 * Answers 0; or 2 for a size of another length, before all else; or 11, 12 or 1 as jivakkol_read_sweep answers them to the first field. A
 * refusal leaves size unchanged. */
uint32_t jivakkol_sweep_size(const uint8_t *file, size_t file_len, uint32_t *size, size_t size_len);

/* The Nyquist velocity of test sweeps. */
#define JIVAKKOL_TEST_NYQUIST 16.0f

/* A test sweep from a seed number, by which sites compare installations: velocity and valid are filled, and the one word of state, at first the
 * seed, is replaced by the state after the last gate.
 *
 * Each gate, ray by ray, replaces the state by state * 1,664,525 + 1,013,904,223 modulo 2^32. It is masked (valid 0, else 1) if the new state's top
 * three bits are all zero. With k the new state's bits 8 to 19 its velocity is (k - 2,048) / 128, masked or not: a whole multiple of 1/128 from
 * -16 to 2,047/128. Its Nyquist velocity is 16, which is the reader's to know.
 * Rays filled call after call, each from the state that the one before left, are the same sweep and end in the same state as filled at once.
 * velocity and valid have rays * gates elements, state has 1. Answers 0, or 1 or 2 (these three slices) as above with everything lent unchanged.
 * The questions that other entries put to mask and velocities, 3 and 7, always get a yes of a test sweep. */
uint32_t jivakkol_test_sweep(
    uint32_t rays, uint32_t gates, uint32_t *state, size_t state_len, float *velocity, size_t velocity_len, uint8_t *valid, size_t valid_len);

#ifdef __cplusplus
}
#endif

#endif
