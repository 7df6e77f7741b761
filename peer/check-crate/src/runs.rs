//! Runs of an evaluator, the library's or the peer's: acts tried one after
//! another on the same lent buffers.

use crate::library;
use crate::random::Random;
use floesedge_peer::{self as peer, Answer};

/// Bytes or floats around each lent buffer that nobody may touch.
pub const MARGIN: usize = 64;

/// What is done with a program on lent buffers.
#[derive(Clone, Copy)]
pub enum Act {
    Evaluate,
    Start,
    Step(f64),
}

/// An evaluator: its three functions.
pub struct Evaluator {
    pub evaluate: fn(&[u8], &mut [f64], &mut [f64]) -> Answer,
    pub start: fn(&[u8], &mut [f64], &mut [f64]) -> Answer,
    pub step: fn(&[u8], f64, &mut [f64], &mut [f64]) -> Answer,
}

pub const PEER: Evaluator = Evaluator {
    evaluate: peer::evaluate,
    start: peer::start,
    step: peer::step,
};
pub const LIBRARY: Evaluator = Evaluator {
    evaluate: library::evaluate,
    start: library::start,
    step: library::step,
};

/// Values and derivatives, with the margins around what is lent.
#[derive(Clone)]
pub struct Buffers {
    values: Vec<f64>,
    derivs: Vec<f64>,
}

impl Buffers {
    /// Random floats, of which so many are lent.
    pub fn random(random: &mut Random, rooms: (usize, usize)) -> Self {
        let mut floats =
            |room: usize| -> Vec<f64> { (0..room + 2 * MARGIN).map(|_| random.float()).collect() };
        Buffers {
            values: floats(rooms.0),
            derivs: floats(rooms.1),
        }
    }

    /// The same, of which only the first places are lent.
    pub fn first(&self, places: usize) -> Self {
        let end = places + 2 * MARGIN;
        Buffers {
            values: self.values[..end].to_vec(),
            derivs: self.derivs[..end].to_vec(),
        }
    }

    /// What stands behind the first places that are lent.
    pub fn behind(&self, places: usize) -> Self {
        let begin = MARGIN + places;
        Buffers {
            values: self.values[begin..].to_vec(),
            derivs: self.derivs[begin..].to_vec(),
        }
    }

    /// All values, then all derivatives.
    fn floats(&self) -> impl Iterator<Item = f64> + '_ {
        self.values.iter().chain(&self.derivs).copied()
    }

    /// Whether a test holds of each place here and there.
    pub fn agree(&self, other: &Self, test: impl Fn(f64, f64) -> bool) -> bool {
        let mut pairs = self.floats().zip(other.floats());
        pairs.all(|(a, b)| test(a, b))
    }

    /// Whether a NaN stands where there was something else before.
    pub fn has_new_nan(&self, before: &Self) -> bool {
        !self.agree(before, |a, b| !a.is_nan() || identical(a, b))
    }
}

/// Whether two floats have the same bits, also if they are NaNs.
pub fn identical(a: f64, b: f64) -> bool {
    a.to_bits() == b.to_bits()
}

/// Whether two floats have the same bits, all NaNs taken as one.
pub fn alike(a: f64, b: f64) -> bool {
    identical(a, b) || a.is_nan() && b.is_nan()
}

/// What an evaluator gave back: its answers, and both buffers after each act.
pub type Evaluated = Vec<(Answer, Buffers)>;

/// What is lent of a buffer.
fn inside(buffer: &mut [f64]) -> &mut [f64] {
    let end = buffer.len() - MARGIN;
    &mut buffer[MARGIN..end]
}

/// Does all acts on the same buffers.
pub fn run(evaluator: &Evaluator, program: &[u8], acts: &[Act], lent: &Buffers) -> Evaluated {
    let mut buffers = lent.clone();
    let mut outcomes = Vec::new();
    for act in acts {
        let values = inside(&mut buffers.values);
        let derivs = inside(&mut buffers.derivs);
        let answer = match *act {
            Act::Evaluate => (evaluator.evaluate)(program, values, derivs),
            Act::Start => (evaluator.start)(program, values, derivs),
            Act::Step(h) => (evaluator.step)(program, h, values, derivs),
        };
        outcomes.push((answer, buffers.clone()));
    }
    outcomes
}

/// Whether two runs gave the same answers, and a test holds of each place.
pub fn agree(ours: &Evaluated, theirs: &Evaluated, test: impl Fn(f64, f64) -> bool) -> bool {
    let mut pairs = ours.iter().zip(theirs);
    pairs.all(|((a, left), (b, right))| a == b && left.agree(right, &test))
}

/// A random h.
pub fn step_of(random: &mut Random) -> f64 {
    if random.once_in(2) {
        random.pick(&[0.1, 0.01, 1.0, 1e-9])
    } else {
        random.float()
    }
}

/// Prints two runs of the same acts, each with its name, up to where they part.
pub fn show(
    acts: &[Act],
    names: [&str; 2],
    runs: [&Evaluated; 2],
    test: impl Fn(f64, f64) -> bool,
) {
    for (act, (a, b)) in acts.iter().zip(runs[0].iter().zip(runs[1])) {
        let name = match act {
            Act::Evaluate => "evaluate".into(),
            Act::Start => "start".into(),
            Act::Step(h) => format!("step of {h:e}"),
        };
        println!(
            "{name}: {} {} record {}, {} {} record {}",
            names[0], a.0.number, a.0.record, names[1], b.0.number, b.0.record
        );
        let parts = [
            ("value", &a.1.values, &b.1.values),
            ("derivative", &a.1.derivs, &b.1.derivs),
        ];
        for (name, left, right) in parts {
            let apart = |&place: &usize| !test(left[place], right[place]);
            for place in (0..left.len()).filter(apart).take(5) {
                println!(
                    "  {name} {}: {} {:016x}, {} {:016x}",
                    place as i64 - MARGIN as i64,
                    names[0],
                    left[place].to_bits(),
                    names[1],
                    right[place].to_bits()
                );
            }
        }
        if a.0 != b.0 || !a.1.agree(&b.1, &test) {
            return;
        }
    }
}

/// Prints the records of a program.
pub fn show_records(program: &[u8]) {
    for record in program.chunks(16) {
        println!("  {}", hex(record));
    }
}

/// Bytes as hexadecimal digits.
pub fn hex(bytes: &[u8]) -> String {
    bytes.iter().map(|byte| format!("{byte:02x}")).collect()
}
