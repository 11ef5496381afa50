//! Why a call is refused: the specification's table.

use crate::LAYOUT_VERSION;
use crate::face::Reply;
use std::{error, fmt};

/// From the table's rows, each with a number, a case, with its place if there is one to give, and the
/// condition: the cases, what they say, and both ways between a case and its number and place.
macro_rules! refusals {
    ($($number:literal $case:ident $(($place:ident: $usize:ty))? $condition:literal)*) => {
        /// Why a call is refused: the first condition of the specification's table that it meets, in this order.
        ///
        /// The stages of a list are counted from 0. Top stages, which no delay owns, are counted among
        /// themselves from 0.
        #[derive(Clone, Copy, Debug, PartialEq, Eq, Hash)]
        #[non_exhaustive]
        pub enum Refusal {
            $(
                #[doc = concat!("Refusal ", $number, ": ", $condition, ".")]
                $case $(($usize))?,
            )*
        }

        impl Refusal {
            /// The number that the specification gives this refusal.
            pub fn number(self) -> u32 {
                match self {
                    $(Refusal::$case { .. } => $number,)*
                }
            }

            /// Where the call goes wrong, as this case has it: a stage, a top stage, a sample or an entry; of a
            /// store that is too short the floats needed; and 0 where there is nothing to name.
            pub fn place(self) -> usize {
                match self {
                    $(Refusal::$case $(($place))? => 0 $(+ $place)?,)*
                }
            }

            /// The place with its name, as " (top stage 1)"; nothing where there is no place to give.
            fn named_place(self) -> String {
                match self {
                    $(Refusal::$case $(($place))? => {
                        let named: &[String] = &[$(format!(" ({} {})", stringify!($place), $place))?];
                        named.concat().replace('_', " ")
                    })*
                }
            }

            fn condition(self) -> &'static str {
                match self {
                    $(Refusal::$case { .. } => $condition,)*
                }
            }

            /// The case of a reply that refuses. 101 and 102 do not come: slices have their
            /// lengths, and stages their words, by their types.
            fn of(reply: Reply) -> Self {
                match reply {
                    $(Reply { number: $number, $(place: $place,)? .. } => Refusal::$case $(($place))?,)*
                    Reply { number, place } => unreachable!(
                        "reply {number} at place {place}: is the library's layout version {LAYOUT_VERSION}?"
                    ),
                }
            }
        }
    };
}

refusals! {
    1 Rate "the rate is below 8,000 or above 192,000"
    2 Stages "there are more than 16 stages"
    3 Shape(stage: usize)
        "this delay owns stages past its owner's or the list's end, or this stage is too deep"
    4 Setting(stage: usize) "a setting of this stage is not finite or not in its range"
    5 Store(floats: usize) "the store is shorter than this many floats"
    6 Position(stage: usize) "a remembered position of this stage is not on its line"
    7 Samples "the number of samples is odd"
    8 Frames "there are more than 4,096 frames"
    9 Progress(top_stage: usize) "this top stage's progress is past the last frame or ahead of the stage before it"
    10 Sample(sample: usize) "this sample is not finite and is still to be run"
    11 Entry(entry: usize) "this entry of the order names no top stage, or one that cannot go on"
}

pub(crate) fn answered(reply: Reply) -> Result<(), Refusal> {
    match reply.number {
        0 => Ok(()),
        _ => Err(Refusal::of(reply)),
    }
}

impl fmt::Display for Refusal {
    fn fmt(&self, f: &mut fmt::Formatter<'_>) -> fmt::Result {
        write!(f, "refusal {}{}: {}", self.number(), self.named_place(), self.condition())
    }
}

impl error::Error for Refusal {}
