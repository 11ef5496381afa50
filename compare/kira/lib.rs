//! The root of the crate that compare/kira/build makes of kira's own sources: those are the modules
//! named first, unchanged. What else they ask for stands here, cut down to what a comparison needs:
//! no commands, no tweening, settings that stay what they are.

mod decibels;
pub mod effect;
mod frame;
mod mix;
mod panning;

pub use decibels::*;
pub use frame::*;
pub use mix::*;
pub use panning::*;

pub mod info {
    pub struct Info;
}

pub mod tween {
    pub trait Tweenable: Copy {
        fn interpolate(a: Self, b: Self, amount: f64) -> Self;
    }

    // Only for the sources to compile: no setting moves.
    impl Tweenable for f32 {
        fn interpolate(a: Self, _: Self, _: f64) -> Self {
            a
        }
    }
}

#[derive(Clone, Copy)]
pub enum Value<T> {
    Fixed(T),
}

/// A setting: it gives what it was given, -0 too, at every moment.
pub struct Parameter<T = f64>(T);

impl<T: Copy> Parameter<T> {
    pub fn new(value: Value<T>, _default: T) -> Self {
        let Value::Fixed(setting) = value;
        Self(setting)
    }

    pub fn update(&mut self, _dt: f64, _info: &info::Info) {}

    pub fn value(&self) -> T {
        self.0
    }

    pub fn interpolated_value(&self, _amount: f64) -> T {
        self.0
    }
}

pub mod command {
    use std::marker::PhantomData;

    pub struct ValueChangeCommand<T>(PhantomData<T>);

    /// No command ever comes.
    pub struct CommandReader<T>(PhantomData<T>);

    impl<T> CommandReader<T> {
        pub fn read(&mut self) -> Option<T> {
            None
        }
    }

    impl<T> Default for CommandReader<T> {
        fn default() -> Self {
            Self(PhantomData)
        }
    }

    macro_rules! read_commands_into_parameters {
        ($effect:ident, $($parameter:ident),* $(,)?) => {
            $(let _ = &$effect.$parameter;)*
        };
    }
    pub(crate) use read_commands_into_parameters;
}

macro_rules! command_writers_and_readers {
    ($($name:ident: $kind:ty),* $(,)?) => {
        #[derive(Default)]
        struct CommandReaders {
            $($name: $crate::command::CommandReader<$kind>,)*
        }
    };
}
pub(crate) use command_writers_and_readers;

/// `opened!(Open, Inner, Builder)`, for a builder module, which as a child of its effect's module
/// reaches what is private there: a public effect around the private one, and the way to it.
macro_rules! opened {
    ($open:ident, $inner:ident, $builder:ident) => {
        pub struct $open(super::$inner);

        impl $builder {
            pub fn open(self) -> $open {
                $open(super::$inner::new(self, Default::default()))
            }
        }

        impl $crate::effect::Effect for $open {
            fn init(&mut self, sample_rate: u32, internal_buffer_size: usize) {
                self.0.init(sample_rate, internal_buffer_size)
            }

            fn process(&mut self, input: &mut [$crate::Frame], dt: f64, info: &$crate::info::Info) {
                self.0.process(input, dt, info)
            }
        }
    };
}
pub(crate) use opened;
