//! The registers: readings come from the script, what is written is kept as
//! rows in document 01's packing.

pub const SDIO: sdio::Sdio = sdio::Sdio;

pub mod sdio {
    use core::marker::PhantomData;

    use crate::bench::{self, Reading};

    /// A register that is written, by its row number.
    pub struct Written<V>(u32, PhantomData<V>);

    impl<V: From<u32> + Into<u32>> Written<V> {
        const fn at(register: u32) -> Self {
            Self(register, PhantomData)
        }

        pub fn write_value(self, value: V) {
            bench::write(self.0, value.into());
        }

        pub fn write<R>(self, fill: impl FnOnce(&mut V) -> R) -> R {
            let mut value = V::from(0);
            let result = fill(&mut value);
            self.write_value(value);
            result
        }

        /// Configuration registers read back what was last written.
        pub fn modify<R>(self, change: impl FnOnce(&mut V) -> R) -> R {
            let mut value = V::from(bench::last_written(self.0));
            let result = change(&mut value);
            self.write_value(value);
            result
        }
    }

    /// A register that is read: each reading takes a word of the script.
    pub struct Taken<V>(Reading, PhantomData<V>);

    impl<V: From<u32>> Taken<V> {
        pub fn read(self) -> V {
            V::from(bench::read(self.0))
        }
    }

    pub struct Fifo;

    impl Fifo {
        #[allow(clippy::wrong_self_convention)]
        pub fn as_ptr(self) -> *mut u32 {
            core::ptr::null_mut()
        }
    }

    #[derive(Clone, Copy)]
    pub struct Sdio;

    macro_rules! written {
        ($($name:ident $value:ident $number:literal)*) => { impl Sdio { $(
            pub fn $name(self) -> Written<regs::$value> {
                Written::at($number)
            }
        )* } };
    }

    written! {
        power Power 1
        clkcr Clkcr 2
        arg Arg 3
        cmd Cmd 4
        dtimer Dtimer 5
        dlen Dlen 6
        dctrl Dctrl 7
        icr Icr 8
        mask Mask 9
        dctrl2 Dctrl2 10
    }

    impl Sdio {
        pub fn sta(self) -> Taken<regs::Word> {
            Taken(Reading::Status, PhantomData)
        }
        pub fn respcmd(self) -> Taken<regs::Respcmd> {
            Taken(Reading::Respcmd, PhantomData)
        }
        pub fn resp(self, place: usize) -> Taken<regs::Word> {
            Taken(Reading::Response(place as u8), PhantomData)
        }
        pub fn dcount(self) -> Taken<regs::Word> {
            Taken(Reading::Dcount, PhantomData)
        }
        pub fn fifo(self) -> Fifo {
            Fifo
        }
    }

    pub mod regs {
        use crate::wrong;

        macro_rules! registers {
            ($($name:ident)*) => { $(
                pub struct $name(pub u32);
                impl From<u32> for $name {
                    fn from(word: u32) -> Self {
                        Self(word)
                    }
                }
                impl From<$name> for u32 {
                    fn from(register: $name) -> u32 {
                        register.0
                    }
                }
                impl $name {
                    #[allow(dead_code)]
                    fn put(&mut self, at: u32, width: u32, value: u32) {
                        let field = ((1 << width) - 1) << at;
                        assert!(value << at & !field == 0, "a field takes what fits it");
                        self.0 = self.0 & !field | value << at;
                    }
                }
            )* };
        }

        registers! { Word Power Clkcr Arg Cmd Dtimer Dlen Dctrl Icr Mask Dctrl2 Respcmd }

        impl Clkcr {
            pub fn set_clkdiv(&mut self, divisor: u8) {
                self.put(0, 8, divisor.into());
            }
            pub fn set_clken(&mut self, on: bool) {
                self.put(8, 1, on.into());
            }
            pub fn set_pwrsav(&mut self, on: bool) {
                self.put(9, 1, on.into());
            }
            pub fn set_bypass(&mut self, on: bool) {
                self.put(10, 1, on.into());
            }
            pub fn set_widbus(&mut self, width: u8) {
                self.put(11, 2, width.into());
            }
            pub fn set_hwfc_en(&mut self, on: bool) {
                self.put(14, 1, on.into());
            }
        }

        impl Cmd {
            pub fn set_cmdindex(&mut self, index: u8) {
                self.put(0, 6, index.into());
            }
            pub fn set_waitresp(&mut self, kind: u8) {
                self.put(6, 2, kind.into());
            }
            pub fn set_cpsmen(&mut self, on: bool) {
                self.put(10, 1, on.into());
            }
        }

        impl Dctrl {
            pub fn set_dten(&mut self, on: bool) {
                self.put(0, 1, on.into());
            }
            pub fn set_dtdir(&mut self, reading: bool) {
                self.put(1, 1, reading.into());
            }
            pub fn set_dmaen(&mut self, on: bool) {
                self.put(3, 1, on.into());
            }
            pub fn set_dblocksize(&mut self, size: u8) {
                self.put(4, 4, size.into());
            }
        }

        impl Respcmd {
            /// The low six bits count.
            pub fn respcmd(&self) -> u8 {
                if wrong::is(wrong::ECHO_UNMASKED) {
                    return self.0 as u8;
                }
                (self.0 & 0x3f) as u8
            }
        }
    }
}
