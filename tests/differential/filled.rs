//! Test sweeps that the library fills from a seed number, and the crc32 by which two installations compare their fold counts. bench/ uses both too.
use crate::jivakkol::jivakkol_test_sweep;
use radish_oracle::Sweep;

/// The test sweep of a seed, with the options of made weather. Nyquist is 16, which a test sweep does not say.
pub fn filled(seed: u32, rays: usize, gates: usize) -> Sweep {
    let (mut velocities, mut mask) = (vec![f32::NAN; rays * gates], vec![7; rays * gates]);
    fill(seed, rays, gates, &mut velocities, &mut mask);
    Sweep { rays, gates, nyquist: 16.0, splits: 3, skip_between_rays: 100, skip_along_ray: 100, centred: 1, wrap: 1, velocities, mask }
}

/// The call itself; it must not be refused.
pub fn fill(mut seed: u32, rays: usize, gates: usize, velocities: &mut [f32], mask: &mut [u8]) {
    let number = unsafe {
        jivakkol_test_sweep(
            rays as u32, gates as u32, &mut seed, 1, velocities.as_mut_ptr(), velocities.len(), mask.as_mut_ptr(), mask.len(),
        )
    };
    assert_eq!(number, 0, "the test sweep of {rays} x {gates} is refused");
}

/// zlib's crc32 of the counts as i32, low byte first.
pub fn crc32(counts: &[i32]) -> u32 {
    let bit = |c: u32| (c >> 1) ^ if c & 1 == 1 { 0xEDB8_8320 } else { 0 };
    !counts.iter().flat_map(|x| x.to_le_bytes()).fold(u32::MAX, |c, byte| (0..8).fold(c ^ byte as u32, |c, _| bit(c)))
}
