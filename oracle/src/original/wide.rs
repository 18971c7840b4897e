//! Stand-in for the crate wide: eight plain f32.

use core::ops::AddAssign;

#[allow(non_camel_case_types)]
#[repr(C)]
#[derive(Clone, Copy, Default)]
pub struct f32x8([f32; 8]);

impl f32x8 {
    pub const ZERO: Self = Self([0.0; 8]);

    pub fn as_array(&self) -> &[f32; 8] {
        &self.0
    }

    pub fn as_mut_array(&mut self) -> &mut [f32; 8] {
        &mut self.0
    }
}

impl AddAssign for f32x8 {
    fn add_assign(&mut self, other: Self) {
        for (x, y) in self.0.iter_mut().zip(other.0) {
            *x += y;
        }
    }
}
