use crate::{Panning, Value};

pub struct PanningControlBuilder(pub Value<Panning>);

crate::opened!(OpenPanningControl, PanningControl, PanningControlBuilder);
