//! Sides of a task, compared and then timed in rotation.
use std::hint::black_box;
use std::time::Instant;

/// How long the calls between two looks at the clock take: so short that most turns are not interrupted.
const TURN: u128 = 50_000;

/// A side of a task.
pub struct Side<'a> {
    answer: Vec<u8>,
    call: Box<dyn Fn() + 'a>,
}

impl<'a> Side<'a> {
    /// A side whose answer is made octets for the comparison alone.
    pub fn new<T: 'a>(call: impl Fn() -> T + 'a, octets: impl Fn(T) -> Vec<u8>) -> Side<'a> {
        let answer = octets(call());
        Side {
            answer,
            call: Box::new(move || drop(black_box(call()))),
        }
    }

    /// A side that hands its answer out, or returns its length alone where there is no room.
    pub fn handing_out(call: impl Fn(&mut [u8]) -> usize + 'a) -> Side<'a> {
        let answer = crate::library::answer(&call);
        Side {
            answer,
            call: Box::new(move || {
                black_box(call(&mut []));
            }),
        }
    }

    fn time(&self, calls: u64) -> f64 {
        let start = Instant::now();
        for _ in 0..calls {
            (self.call)();
        }
        start.elapsed().as_nanos() as f64 / calls as f64
    }

    /// How many calls make a turn.
    fn calls(&self) -> u64 {
        let mut calls = 1;
        while self.time(calls) * (calls as f64) < TURN as f64 {
            calls *= 2;
        }
        calls
    }
}

/// The sides of a task, of which the first is timed against the others.
pub struct Task<'a> {
    pub name: &'static str,
    pub sms: Side<'a>,
    pub ofono: Option<Side<'a>>,
    pub plain: Option<Side<'a>>,
    pub tuned: Option<Side<'a>>,
}

pub struct Bench {
    /// Seconds for each task.
    pub seconds: f64,
    /// A word that the names of the tasks to be timed have.
    pub word: String,
}

impl Bench {
    pub fn head(&self) {
        println!(
            "| task, ns a call | sms | oFono | plain Rust | tuned Rust | sms/oFono | sms/plain | sms/tuned |"
        );
        println!("|---|---|---|---|---|---|---|---|");
    }

    /// Compares the answers with the one that is wanted, and prints the least time of a call of each side.
    pub fn row(&self, wanted: &[u8], task: Task) {
        let Task {
            name,
            sms,
            ofono,
            plain,
            tuned,
        } = task;
        let sides = [Some(sms), ofono, plain, tuned];
        for (side, which) in sides
            .iter()
            .zip(["sms", "oFono", "plain Rust", "tuned Rust"])
        {
            let agrees = side.as_ref().is_none_or(|side| side.answer == wanted);
            assert!(agrees, "{name}: {which} answers otherwise");
        }
        if !name.contains(&self.word) {
            return;
        }
        let least = self.least(&sides);
        let cell = |time: Option<f64>| time.map_or("-".into(), |time| format!("{time:.0}"));
        let ratio = |time: Option<f64>| match (least[0], time) {
            (Some(sms), Some(other)) => format!("{:.2}", sms / other),
            _ => "-".into(),
        };
        let cells: Vec<String> = least
            .into_iter()
            .map(cell)
            .chain(least[1..].iter().copied().map(ratio))
            .collect();
        println!("| {name} | {} |", cells.join(" | "));
    }

    /// The least time of a call of each side, in nanoseconds, from many turns in rotation.
    fn least(&self, sides: &[Option<Side>; 4]) -> [Option<f64>; 4] {
        let calls = sides.each_ref().map(|side| side.as_ref().map(Side::calls));
        let mut least = [None; 4];
        let start = Instant::now();
        while start.elapsed().as_secs_f64() < self.seconds {
            for (index, side) in sides.iter().enumerate() {
                if let (Some(side), Some(calls)) = (side, calls[index]) {
                    side.time(1);
                    let time = side.time(calls);
                    least[index] = Some(least[index].map_or(time, |least: f64| least.min(time)));
                }
            }
        }
        least
    }
}
