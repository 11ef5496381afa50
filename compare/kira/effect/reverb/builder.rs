use super::{AllPassFilter, CombFilter, NUM_ALL_PASS_FILTERS, NUM_COMB_FILTERS, ReverbState};
use crate::{Mix, Value};

pub struct ReverbBuilder {
    pub feedback: Value<f64>,
    pub damping: Value<f64>,
    pub stereo_width: Value<f64>,
    pub mix: Value<Mix>,
}

crate::opened!(OpenReverb, Reverb, ReverbBuilder);

impl OpenReverb {
    /// The filters, each left and right; none before `init`. comb.rs and all_pass.rs of this folder
    /// say what can be read and set of each.
    pub fn filters(
        &mut self,
    ) -> Option<(
        &mut [(CombFilter, CombFilter); NUM_COMB_FILTERS],
        &mut [(AllPassFilter, AllPassFilter); NUM_ALL_PASS_FILTERS],
    )> {
        match &mut self.0.state {
            ReverbState::Uninitialized => None,
            ReverbState::Initialized {
                comb_filters,
                all_pass_filters,
            } => Some((comb_filters, all_pass_filters)),
        }
    }
}
