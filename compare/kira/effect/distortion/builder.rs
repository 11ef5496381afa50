use super::{CommandReaders, DistortionKind};
use crate::{Decibels, Mix, Parameter, Value};

pub struct DistortionBuilder {
    pub kind: DistortionKind,
    pub drive: Value<Decibels>,
    pub mix: Value<Mix>,
}

crate::opened!(OpenDistortion, Distortion, DistortionBuilder);

// kira has this in its builder's file.
impl super::Distortion {
    fn new(builder: DistortionBuilder, command_readers: CommandReaders) -> Self {
        Self {
            command_readers,
            kind: builder.kind,
            drive: Parameter::new(builder.drive, Decibels::IDENTITY),
            mix: Parameter::new(builder.mix, Mix::WET),
        }
    }
}
