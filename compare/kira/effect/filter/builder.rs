use super::FilterMode;
use crate::{Frame, Mix, Value};

pub struct FilterBuilder {
    pub mode: FilterMode,
    pub cutoff: Value<f64>,
    pub resonance: Value<f64>,
    pub mix: Value<Mix>,
}

crate::opened!(OpenFilter, Filter, FilterBuilder);

impl OpenFilter {
    /// `ic1eq` and `ic2eq`
    pub fn memory(&mut self) -> [&mut Frame; 2] {
        [&mut self.0.ic1eq, &mut self.0.ic2eq]
    }
}
