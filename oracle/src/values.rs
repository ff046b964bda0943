//! naga's conversion of a value beside that of the rules.
use crate::back::opened;
use crate::expressions::literal_words;
use crate::run::scalar;

/// map_value_to_literal (unchanged) against the model's conversion, n random values for each of the 8 types.
pub fn values(seed: u64, n: u64) {
    use crate::model::{convert, Conv};
    let mut r = crate::gen::Rng(seed);
    let mut bad = 0u64;
    for (kind, width) in [(3u8, 1u8), (0, 2), (1, 2), (0, 4), (1, 4), (2, 2), (2, 4), (2, 8)] {
        for i in 0..n {
            let bits = match i % 4 {
                0 => r.next(),
                1 => (r.next() as i64 as f64 / (1u64 << r.below(64)) as f64).to_bits(),
                2 => {
                    let e = 1023 - 30 + r.below(70);
                    (r.next() >> 12 & !0u64 << r.below(50)) | e << 52 | r.below(2) << 63
                }
                _ => {
                    let e = 1023 - 155 + r.below(300);
                    (r.next() >> 12 & !0u64 << r.below(50)) | e << 52 | r.below(2) << 63
                }
            };
            let got = match opened::to_literal(f64::from_bits(bits), scalar(kind, width)) {
                Ok(l) => {
                    let (t, b) = literal_words(&l);
                    (0, t, b)
                }
                Err(opened::PipelineConstantError::SrcNeedsToBeFinite) => (9, 0, 0),
                Err(_) => (10, 0, 0),
            };
            let want = match convert(bits, kind, width) {
                Conv::Lit(t, b) => (0, t, b),
                Conv::NotFinite => (9, 0, 0),
                Conv::TooSmall => (10, 0, 0),
                Conv::Other => (11, 0, 0),
            };
            if got != want {
                bad += 1;
                if bad < 10 {
                    println!("scalar {kind} {width} value {bits:016x}: Rust {got:x?} rules {want:x?}")
                }
            }
        }
    }
    println!("{} values, {bad} different", 8 * n);
}
