//! Times of peers that take turns, so that a slow moment of the machine hits all of them alike.

use std::hint::black_box;
use std::time::{Duration, Instant};

/// The least that the turns of a peer last together.
const LEAST: Duration = Duration::from_millis(50);
/// The least that one turn lasts.
const TURN: Duration = Duration::from_micros(2_500);
/// The least number of turns of a peer that is not slow.
const TURNS: usize = 9;
/// A peer is slow when its turns last this long together.
const SLOW: Duration = Duration::from_millis(1_000);

/// The result of the call, and how long the call took.
pub fn timed<T>(call: impl FnOnce() -> T) -> (T, Duration) {
    let start = Instant::now();
    let result = black_box(call());
    (result, start.elapsed())
}

/// The seconds of the shortest lap of each peer, where `lap` lets a peer run once and says how long that took.
pub fn race(peers: usize, mut lap: impl FnMut(usize) -> Duration) -> Vec<f64> {
    let mut peers: Vec<Turns> = (0..peers).map(|_| Turns::none()).collect();
    while peers.iter().any(Turns::go_on) {
        for (peer, turns) in peers.iter_mut().enumerate() {
            if turns.go_on() {
                turns.take(|| lap(peer));
            }
        }
    }
    let shortest = peers.iter().map(|turns| turns.shortest.as_secs_f64());
    shortest.collect()
}

/// The turns of one peer: how many, how long they lasted together, and the shortest lap.
struct Turns {
    taken: usize,
    lasted: Duration,
    shortest: Duration,
}

impl Turns {
    /// No turn yet.
    fn none() -> Turns {
        Turns {
            taken: 0,
            lasted: Duration::ZERO,
            shortest: Duration::MAX,
        }
    }

    /// Whether the peer takes another turn.
    fn go_on(&self) -> bool {
        self.lasted < LEAST || (self.taken < TURNS && self.lasted < SLOW)
    }

    /// One turn: laps until it has lasted long enough.
    fn take(&mut self, mut lap: impl FnMut() -> Duration) {
        let mut turn = Duration::ZERO;
        while turn < TURN {
            let lasted = lap();
            self.shortest = self.shortest.min(lasted);
            turn += lasted;
        }
        self.taken += 1;
        self.lasted += turn;
    }
}
