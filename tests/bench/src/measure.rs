//! Times the cut of one mesh by the product and by each of its rivals, in turns.

use crate::clock::now;
use lists::meshes::Mesh;
use std::hint::black_box;

/// How many cut.
pub const WHO: usize = 4;

/// Who cuts.
#[derive(Clone, Copy, PartialEq, Eq)]
pub enum Who {
    Product,
    Unchecked,
    Baseline,
    Touch,
}

impl Who {
    pub const ALL: [Who; WHO] = [Who::Product, Who::Unchecked, Who::Baseline, Who::Touch];

    pub fn name(self) -> &'static str {
        match self {
            Who::Product => "product",
            Who::Unchecked => "Rust, unchecked",
            Who::Baseline => "HashMap",
            Who::Touch => "one touch",
        }
    }
}

/// The fewest and the most turns that each takes; a turn is some calls in a row.
const FEWEST_TURNS: usize = 31;
const MOST_TURNS: usize = 200;

/// Turns are taken until none has been quicker than all before it by so much, for so many rounds.
const QUICKER: f64 = 0.995;
const CALM_ROUNDS: usize = 15;

/// A turn takes at least about so long.
const TURN_NS: f64 = 400_000.0;

/// Nanoseconds of one call.
#[derive(Clone, Copy)]
pub struct Time {
    /// The quickest turn.
    pub least: f64,
    /// The turn in the middle.
    pub middle: f64,
}

/// The buffers of a cut; they stay warm from call to call, and work stays clear.
struct Buffers {
    new_list: Vec<i32>,
    map: Vec<i32>,
    work: Vec<u32>,
}

impl Buffers {
    fn new(mesh: &Mesh) -> Buffers {
        let corners = corners_of(mesh);
        Buffers {
            new_list: vec![0; mesh.list.len()],
            map: vec![0; corners],
            work: vec![0; 4 * corners],
        }
    }
}

pub fn corners_of(mesh: &Mesh) -> usize {
    mesh.list.iter().filter(|&&entry| entry != -1).count()
}

/// One cut; answers the numbers as far as the rival has them.
fn cut(who: Who, mesh: &Mesh, buffers: &mut Buffers) -> u64 {
    let Mesh { list, n } = mesh;
    let Buffers {
        new_list,
        map,
        work,
    } = buffers;
    match who {
        Who::Product => product::cut(list, *n, new_list, map, work)[4],
        Who::Unchecked => rivals::unchecked::cut(list, *n, new_list, map, work)[4],
        Who::Baseline => match rivals::baseline::cut(list, *n as usize) {
            Ok(cut) => black_box(cut).map.len() as u64,
            Err(_) => 0,
        },
        Who::Touch => {
            rivals::touch::touch(list, new_list, map, work);
            0
        }
    }
}

/// Nanoseconds of some calls in a row.
fn turn(calls: usize, call: &mut dyn FnMut()) -> f64 {
    let start = now();
    for _ in 0..calls {
        call();
    }
    now() - start
}

/// How many calls make a turn.
fn calls_in_turn(call: &mut dyn FnMut()) -> usize {
    let mut calls = 1;
    loop {
        let time = turn(calls, call);
        if TURN_NS <= time || 1_000_000 <= calls {
            return calls;
        }
        calls *= 2;
    }
}

/// The times of some calls that take turns, so that whatever else the machine does falls on all
/// alike. The turns go on until the quickest of each stays what it is.
fn times_in_turns<const N: usize>(mut call: impl FnMut(usize)) -> [Time; N] {
    let mut calls = [0; N];
    for (who, calls) in calls.iter_mut().enumerate() {
        *calls = calls_in_turn(&mut || call(who));
    }
    let mut turns: [Vec<f64>; N] = std::array::from_fn(|_| Vec::new());
    let mut least = [f64::MAX; N];
    let (mut round, mut calm) = (0, 0);
    while round < FEWEST_TURNS || (calm < CALM_ROUNDS && round < MOST_TURNS) {
        calm += 1;
        for who in 0..N {
            let time = turn(calls[who], &mut || call(who)) / calls[who] as f64;
            turns[who].push(time);
            if time < least[who] * QUICKER {
                calm = 0;
            }
            least[who] = least[who].min(time);
        }
        round += 1;
    }
    turns.map(time_of)
}

fn time_of(mut turns: Vec<f64>) -> Time {
    turns.sort_by(f64::total_cmp);
    Time {
        least: turns[0],
        middle: turns[turns.len() / 2],
    }
}

/// The times of all who cut for one mesh, in the order of `Who::ALL`.
pub fn times(mesh: &Mesh) -> [Time; WHO] {
    let mut buffers = Buffers::new(mesh);
    times_in_turns(|who| {
        black_box(cut(Who::ALL[who], black_box(mesh), &mut buffers));
    })
}

/// The time of any one call.
pub fn time(mut call: impl FnMut()) -> Time {
    let [time] = times_in_turns(|_| call());
    time
}
