//! Stands in for the crate of this name. The blocking path wakes nobody.

pub mod waitqueue {
    pub struct AtomicWaker;

    impl AtomicWaker {
        #[allow(clippy::new_without_default)]
        pub const fn new() -> Self {
            Self
        }

        pub fn wake(&self) {}
    }
}
