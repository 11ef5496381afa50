use crate::{Decibels, Value};

pub struct VolumeControlBuilder(pub Value<Decibels>);

crate::opened!(OpenVolumeControl, VolumeControl, VolumeControlBuilder);
