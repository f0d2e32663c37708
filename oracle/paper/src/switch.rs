//! What the switches of a model have in common: each is one a thread, and on for the time of an act alone.

use std::cell::Cell;
use std::thread::LocalKey;

/// Acts with a switch set to something else, and sets it back whatever happens.
pub(crate) fn with<S: Copy, R>(switch: &'static LocalKey<Cell<S>>, other: S, act: impl FnOnce() -> R) -> R {
    struct Back<S: Copy + 'static>(&'static LocalKey<Cell<S>>, S);
    impl<S: Copy> Drop for Back<S> {
        fn drop(&mut self) {
            self.0.set(self.1);
        }
    }
    let _back = Back(switch, switch.replace(other));
    act()
}
