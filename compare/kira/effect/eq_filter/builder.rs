use super::{Coefficients, EqFilterKind};
use crate::{Decibels, Frame, Value};

pub struct EqFilterBuilder {
    pub kind: EqFilterKind,
    pub frequency: Value<f64>,
    pub gain: Value<Decibels>,
    pub q: Value<f64>,
}

crate::opened!(OpenEqFilter, EqFilter, EqFilterBuilder);

impl OpenEqFilter {
    /// `ic1eq` and `ic2eq`
    pub fn memory(&mut self) -> [&mut Frame; 2] {
        [&mut self.0.ic1eq, &mut self.0.ic2eq]
    }
}

/// `a1`, `a2`, `a3`, `m0`, `m1`, `m2` of the private `Coefficients::calculate`
pub fn coefficients(
    kind: EqFilterKind,
    frequency: f64,
    q: f64,
    gain: Decibels,
    dt: f64,
) -> [f64; 6] {
    let c = Coefficients::calculate(kind, frequency, q, gain, dt);
    [c.a1, c.a2, c.a3, c.m0, c.m1, c.m2]
}
