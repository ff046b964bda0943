//! Stand-in for half::f16: from_f64 rounds ONCE, to nearest, ties to even (IEEE 754).
#[allow(non_camel_case_types)]
#[derive(Clone, Copy, Debug, PartialEq)]
pub struct f16(u16);
impl f16 {
    pub const fn from_bits(b: u16) -> Self {
        f16(b)
    }
    pub const fn to_bits(self) -> u16 {
        self.0
    }
    pub const fn is_finite(self) -> bool {
        self.0 & 0x7c00 != 0x7c00
    }
    pub fn from_f64(v: f64) -> Self {
        let bits = v.to_bits();
        let sign = ((bits >> 48) & 0x8000) as u16;
        let exp = ((bits >> 52) & 0x7ff) as i32;
        let frac = bits & ((1u64 << 52) - 1);
        if exp == 0x7ff {
            return f16(sign | 0x7c00 | if frac != 0 { 0x200 } else { 0 });
        }
        if exp == 0 {
            return f16(sign); // f64 subnormals are far below half the least f16
        }
        let m = frac | (1u64 << 52); // value = m * 2^(exp-1075)
                                     // quantum of the result: 2^q, q = max(e-10, -24) with e = exp-1023
        let q = core::cmp::max(exp - 1023 - 10, -24);
        let shift = q - (exp - 1075); // >= 42
        if shift >= 64 {
            return f16(sign);
        }
        let k = m >> shift;
        let rest = m & ((1u64 << shift) - 1);
        let halfway = 1u64 << (shift - 1);
        let k = if rest > halfway || (rest == halfway && k & 1 == 1) {
            k + 1
        } else {
            k
        };
        // k counts quanta of 2^q; k <= 2048
        let r = if q == -24 {
            k // subnormal, or carries by itself into the first normals
        } else {
            ((q + 24) as u64) * 1024 + k // biased exponent (q+25) with the hidden bit 1024 taken off
        };
        if r >= 0x7c00 {
            f16(sign | 0x7c00)
        } else {
            f16(sign | r as u16)
        }
    }
}
