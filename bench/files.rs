//! Times writing and reading a sweep file at three sizes: the least seconds of twenty runs. Every gate that is read back is compared.
use std::time::Instant;

#[path = "../include/jivakkol.rs"]
#[allow(dead_code)]
mod jivakkol;
use jivakkol::{jivakkol_read_sweep, jivakkol_write_sweep};

fn main() {
    for (rays, gates) in [(90usize, 250usize), (360, 1000), (720, 1200)] {
        let n = rays * gates;
        let bits: Vec<u32> = (0..n).map(|g| ((g * 31 % 2000) as f32 / 100.0 - 10.0).to_bits()).collect();
        let mask: Vec<u8> = (0..n).map(|g| (g % 7 != 0) as u8).collect();
        let mut file = vec![0u8; 18 + rays * (3 + 5 * gates)];
        let (mut read_bits, mut read_mask, mut header) = (vec![0u32; n], vec![0u8; n], [0u32; 8]);
        let mut least = [f64::MAX; 2];
        for _ in 0..20 {
            let from = Instant::now();
            let written = unsafe {
                jivakkol_write_sweep(
                    rays as u32, gates as u32, 10.0, 3, 100, 100, 1, 1, bits.as_ptr(), n, mask.as_ptr(), n, file.as_mut_ptr(), file.len(),
                )
            };
            let between = Instant::now();
            let read = unsafe {
                jivakkol_read_sweep(file.as_ptr(), file.len(), read_bits.as_mut_ptr(), n, read_mask.as_mut_ptr(), n, header.as_mut_ptr(), 8)
            };
            least[0] = least[0].min((between - from).as_secs_f64());
            least[1] = least[1].min(between.elapsed().as_secs_f64());
            assert!(written == 0 && read == 0 && read_bits == bits && read_mask == mask, "the file is not the sweep's");
        }
        println!("{rays} x {gates}: written in {:.4} s, read in {:.4} s", least[0], least[1]);
    }
}
