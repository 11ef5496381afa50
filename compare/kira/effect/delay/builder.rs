use crate::{Decibels, Frame, Mix, Value, effect::Effect};
use std::time::Duration;

pub struct DelayBuilder {
    pub delay_time: Duration,
    pub feedback: Value<Decibels>,
    pub mix: Value<Mix>,
    pub feedback_effects: Vec<Box<dyn Effect>>,
}

crate::opened!(OpenDelay, Delay, DelayBuilder);

impl OpenDelay {
    /// `buffer`, oldest frame first; empty before `init`
    pub fn memory(&mut self) -> &mut [Frame] {
        &mut self.0.buffer
    }
}
