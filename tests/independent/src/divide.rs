//! C's own division, of divide.c.

extern "C" {
    fn c_quotient(s: u64, d: u64) -> f64;
}

/// The bits of C's quotient of s by s + d.
pub fn quotient(s: u64, d: u64) -> u64 {
    unsafe { c_quotient(s, d) }.to_bits()
}
