// The functions of the crate `sedhavil`, by the declarations of the bindings, on all that a call may change.
use crate::table::Refusal;
use bindings::Reply;

// Those of a WAV file are not compared here.
#[allow(dead_code)]
#[path = "../bindings/rust/src/face.rs"]
mod bindings;

// All that a call may change.
#[derive(Clone, Debug, Default)]
pub struct Held {
    pub samples: Vec<f32>,
    pub positions: Vec<usize>,
    pub floats: Vec<f32>,
    pub store: Vec<f32>,
    pub progress: Vec<usize>,
}

fn told(reply: Reply) -> Refusal {
    Refusal {
        number: reply.number,
        place: reply.place,
    }
}

pub fn run(rate: u32, stages: &[u64], held: &mut Held, order: &[usize]) -> Refusal {
    told(bindings::run(
        rate,
        stages,
        &mut held.samples,
        &mut held.positions,
        &mut held.floats,
        &mut held.store,
        &mut held.progress,
        order,
    ))
}

pub fn render(rate: u32, stages: &[u64], held: &mut Held) -> Refusal {
    told(bindings::render(
        rate,
        stages,
        &mut held.samples,
        &mut held.positions,
        &mut held.floats,
        &mut held.store,
        &mut held.progress,
    ))
}

pub fn start(rate: u32, stages: &[u64], held: &mut Held) -> Refusal {
    let Held {
        positions,
        floats,
        store,
        ..
    } = held;
    told(bindings::start(rate, stages, positions, floats, store))
}

// The floats as the place of an accepted call, where table.rs has them.
pub fn floats_needed(rate: u32, stages: &[u64]) -> Refusal {
    let room = bindings::floats_needed(rate, stages);
    let idle = if room.number == 0 {
        room.place
    } else {
        room.floats
    };
    assert_eq!(
        idle, 0,
        "an accepted call has no place, and a refused one no floats"
    );
    Refusal {
        number: room.number,
        place: room.place.max(room.floats),
    }
}
