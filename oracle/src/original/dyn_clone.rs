//! Stand-in for the crate dyn_clone: cloning of boxed units.

use super::audiounit::AudioUnit;

pub trait DynClone {
    fn clone_box(&self) -> Box<dyn AudioUnit>;
}

impl<T: AudioUnit + Clone> DynClone for T {
    fn clone_box(&self) -> Box<dyn AudioUnit> {
        Box::new(self.clone())
    }
}

impl Clone for Box<dyn AudioUnit> {
    fn clone(&self) -> Self {
        (**self).clone_box()
    }
}
