use std::fmt;
use std::hint::black_box;
use std::time::{Duration, Instant};

use crate::spread::Spread;
use crate::times::Times;

const TURNS: u32 = 11;
/// At least so many, where a call takes longer than a round should.
const FEW_TURNS: u32 = 3;
const TURN_TIME: Duration = Duration::from_millis(40);

/// Makes a call so many times; the time that they took, without what was made ready for them.
pub type Side = Box<dyn FnMut(usize) -> Duration>;

/// What a row times: a call of Netbuff and one of the Rust, where there are such calls.
pub struct Sides {
    pub ours: Option<Side>,
    pub rust: Option<Side>,
    /// What one call handles, to show the time for each of them: how many, and their name.
    pub units: (usize, &'static str),
}

/// A side that needs nothing made ready. Every call must be accepted: a refusal ends early, and its
/// time says nothing.
pub fn plain<T, E: fmt::Debug>(mut call: impl FnMut() -> Result<T, E> + 'static) -> Side {
    Box::new(move |times| {
        let start = Instant::now();
        for _ in 0..times {
            black_box(call()).expect("an accepted call");
        }
        start.elapsed()
    })
}

/// A side whose every call takes something that was made ready before the clock starts.
pub fn prepared<P: 'static, T, E: fmt::Debug>(
    mut prepare: impl FnMut() -> P + 'static,
    mut call: impl FnMut(P) -> Result<T, E> + 'static,
) -> Side {
    Box::new(move |times| {
        let ready: Vec<P> = (0..times).map(|_| prepare()).collect();
        let start = Instant::now();
        for each in ready {
            black_box(call(each)).expect("an accepted call");
        }
        start.elapsed()
    })
}

/// Rounds of both sides in turn; the median of each side's rounds.
pub fn measure(sides: Sides) -> Times {
    let (count, unit) = sides.units;
    let mut sides = [sides.ours, sides.rust].map(|side| side.map(Timed::new));
    let longest = sides.iter().flatten().map(|side| side.round_time).max();
    for _ in 0..rounds(longest.unwrap_or_default()) {
        sides.iter_mut().flatten().for_each(Timed::round);
    }
    let [ours, rust] = sides.map(|side| Some(Spread::of(side?.rounds)?.median));
    Times {
        ours,
        rust,
        count,
        unit: unit.into(),
    }
}

/// How many rounds are made, where the longest takes so long.
fn rounds(longest: Duration) -> u32 {
    let fit = (TURN_TIME * TURNS).as_nanos() / longest.as_nanos().max(1);
    (fit as u32).clamp(FEW_TURNS, TURNS)
}

struct Timed {
    side: Side,
    /// How many calls make up a round, and about how long they take.
    times: u32,
    round_time: Duration,
    /// Nanoseconds of a call, by round.
    rounds: Vec<f64>,
}

impl Timed {
    fn new(mut side: Side) -> Self {
        const MOST: u128 = 2_000_000;
        side(1);
        let once = side(1).max(Duration::from_nanos(20));
        let times = (TURN_TIME.as_nanos() / once.as_nanos()).clamp(1, MOST) as u32;
        Self {
            side,
            times,
            round_time: once * times,
            rounds: Vec::new(),
        }
    }

    fn round(&mut self) {
        let time = (self.side)(self.times as usize);
        let calls = f64::from(self.times);
        self.rounds.push(time.as_nanos() as f64 / calls);
    }
}

#[cfg(test)]
mod tests {
    use super::*;

    /// A side that claims so many nanoseconds for each call.
    fn claiming(nanoseconds: u64) -> Option<Side> {
        Some(Box::new(move |times| {
            Duration::from_nanos(nanoseconds * times as u64)
        }))
    }

    #[test]
    fn times_are_those_of_one_call() {
        let times = measure(Sides {
            ours: claiming(250),
            rust: claiming(90_000_000),
            units: (8, "block"),
        });
        assert_eq!((times.ours, times.rust), (Some(250.0), Some(90_000_000.0)));
        assert_eq!((times.count, times.unit.as_str()), (8, "block"));
    }

    #[test]
    fn there_are_fewer_rounds_where_they_are_long() {
        let milliseconds = [0, 40, 50, 100, 500].map(Duration::from_millis);
        assert_eq!(milliseconds.map(rounds), [11, 11, 8, 4, 3]);
    }

    #[test]
    fn a_side_may_be_missing() {
        let times = measure(Sides {
            ours: None,
            rust: claiming(1000),
            units: (1, "copy"),
        });
        assert_eq!((times.ours, times.rust), (None, Some(1000.0)));
    }
}
