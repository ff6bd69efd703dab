//! The least of interleaved repetitions.

use std::time::{Duration, Instant};

/// How often a measure is repeated: at least so many rounds, and for at least so long.
#[derive(Clone, Copy, Debug)]
pub struct Rounds {
    /// So many rounds.
    pub times: usize,
    /// So long.
    pub length: Duration,
}

/// What is timed: it works on the state that the sides share and answers how long it took.
pub type Side<'a, S> = &'a dyn Fn(&mut S) -> Duration;

/// Runs the sides in turn, after a first round that only touches what they use. Answers the least time of each.
pub fn least<S, const N: usize>(
    rounds: Rounds,
    state: &mut S,
    sides: [Side<S>; N],
) -> [Duration; N] {
    for side in sides {
        side(state);
    }
    let mut least = [Duration::MAX; N];
    let start = Instant::now();
    let mut done = 0;
    while done < rounds.times || start.elapsed() < rounds.length {
        for (side, least) in sides.iter().zip(&mut least) {
            *least = side(state).min(*least);
        }
        done += 1;
    }
    least
}

/// How long the work takes.
pub fn time(work: impl FnOnce()) -> Duration {
    let start = Instant::now();
    work();
    start.elapsed()
}

#[cfg(test)]
mod tests {
    use super::{least, Rounds};
    use std::time::Duration;

    #[test]
    fn the_least_of_each_side_but_for_the_first_round() {
        let times = [[1, 9], [5, 8], [4, 7], [6, 6]];
        let rounds = Rounds {
            times: 3,
            length: Duration::ZERO,
        };
        let side = |n: usize| {
            move |calls: &mut usize| {
                let round = *calls / 2;
                *calls += 1;
                Duration::from_secs(times[round][n])
            }
        };
        let least = least(rounds, &mut 0, [&side(0), &side(1)]);
        assert_eq!(least, [4, 6].map(Duration::from_secs));
    }
}
