//! Why the settings of a stage are not changed.

use crate::{Refusal, Stage};
use std::{error, fmt, mem};

/// Why [`Chain::set`](crate::Chain::set) changed nothing: the first reason in this order.
#[derive(Clone, Copy, Debug, PartialEq, Eq, Hash)]
#[non_exhaustive]
pub enum NotSet {
    /// The list has no stage at this place.
    NoStage,
    /// The stage at this place is of another kind.
    Kind,
    /// The delay at this place is of another length in frames.
    Frames,
    /// The delay at this place owns another number of stages.
    Owned,
    /// The library refuses the new settings: a setting is not finite or not in its range.
    Refused(Refusal),
}

impl NotSet {
    /// Of a change by which lines would move.
    pub(crate) fn unless_settings_only(before: Stage, after: Stage) -> Result<(), Self> {
        if mem::discriminant(&before) != mem::discriminant(&after) {
            return Err(NotSet::Kind);
        }
        match (before, after) {
            (Stage::Delay { frames, .. }, Stage::Delay { frames: other, .. }) if frames != other => {
                Err(NotSet::Frames)
            }
            (Stage::Delay { owned, .. }, Stage::Delay { owned: other, .. }) if owned != other => {
                Err(NotSet::Owned)
            }
            _ => Ok(()),
        }
    }
}

impl fmt::Display for NotSet {
    fn fmt(&self, f: &mut fmt::Formatter<'_>) -> fmt::Result {
        let kept = match self {
            NotSet::NoStage => return f.write_str("the list has no stage at this place"),
            NotSet::Refused(refusal) => return refusal.fmt(f),
            NotSet::Kind => "a stage keeps its kind",
            NotSet::Frames => "a delay keeps its frames",
            NotSet::Owned => "a delay keeps its owned stages",
        };
        write!(f, "{kept} as long as its chain goes on: build another chain for a change")
    }
}

impl error::Error for NotSet {}
