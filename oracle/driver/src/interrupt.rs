//! Interrupt control, which writes no row.

pub mod typelevel {
    pub trait Interrupt {
        fn unpend() {}
        fn disable() {}
        /// # Safety
        /// None is needed here; upstream asks for it.
        unsafe fn enable() {}
    }

    pub trait Handler<I: Interrupt> {
        /// # Safety
        /// None is needed here; upstream asks for it.
        unsafe fn on_interrupt();
    }

    /// # Safety
    /// Says that handler `H` is bound to interrupt `I`.
    pub unsafe trait Binding<I: Interrupt, H: Handler<I>> {}
}

/// An interrupt that never comes, and the binding of any handler to it.
pub struct Nobody;

impl typelevel::Interrupt for Nobody {}

unsafe impl<H: typelevel::Handler<Nobody>> typelevel::Binding<Nobody, H> for Nobody {}
