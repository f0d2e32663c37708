//! The upstream macros that the driver names, cut down to what a desk computer
//! needs: any pin and any DMA channel will do.

macro_rules! pin_trait {
    ($signal:ident, $instance:ident) => {
        pub trait $signal<T: $instance, const REMAP: u8 = 0>: crate::gpio::Pin {}
        impl<T: $instance, const REMAP: u8> $signal<T, REMAP> for crate::gpio::AnyPin {}
    };
}

macro_rules! dma_trait {
    ($signal:ident, $instance:ident) => {
        pub trait $signal<T: $instance>: crate::dma::Channel {
            fn request(&self) -> crate::dma::Request;
        }
        impl<T: $instance> $signal<T> for crate::dma::AnyChannel {
            fn request(&self) -> crate::dma::Request {}
        }
    };
}

macro_rules! new_pin {
    ($pin:ident, $kind:expr) => {
        Some(crate::gpio::degrade($pin, $kind))
    };
}

macro_rules! apply_remap {
    () => {};
}

macro_rules! if_remap {
    ($($what:tt)*) => { $($what)* };
}
