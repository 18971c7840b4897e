//! Stand-in for the crate libm: nearest whole number, halves away from zero.

#[inline(always)]
pub fn roundf(x: f32) -> f32 {
    x.round()
}

#[inline(always)]
pub fn round(x: f64) -> f64 {
    x.round()
}
