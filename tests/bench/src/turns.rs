//! Two calls timed in turn.

/// How many pairs of calls on a picture of that side take a few seconds.
pub fn pairs_for(side: usize) -> usize {
    (120_000_000 / (side * side)).clamp(60, 1000)
}

/// What the two calls of each pair took, in order of size.
pub struct Pairs {
    /// The second call's time over that of the first.
    ratios: Vec<f64>,
    times: [Vec<f64>; 2],
}

/// Times so many pairs of calls. `call` is told the number of the pair and which
/// of the two it is, 0 or 1, and gives the time that it took; which one comes
/// first turns from pair to pair. Pair 0 warms the caches and is not counted.
pub fn time(pairs: usize, mut call: impl FnMut(usize, usize) -> f64) -> Pairs {
    let (mut ratios, mut all) = (Vec::new(), [Vec::new(), Vec::new()]);
    for pair in 0..=pairs {
        let mut times = [0.0; 2];
        for turn in 0..2 {
            let which = (pair + turn) % 2;
            times[which] = call(pair, which);
        }
        if pair > 0 {
            ratios.push(times[1] / times[0]);
            for (all, time) in all.iter_mut().zip(times) {
                all.push(time);
            }
        }
    }
    ratios.sort_by(f64::total_cmp);
    for times in &mut all {
        times.sort_by(f64::total_cmp);
    }
    Pairs { ratios, times: all }
}

impl Pairs {
    /// How many were counted.
    pub fn count(&self) -> usize {
        self.ratios.len()
    }

    /// The median of the ratios.
    pub fn ratio(&self) -> f64 {
        self.ratios[self.ratios.len() / 2]
    }

    /// The median time of each call.
    pub fn medians(&self) -> [f64; 2] {
        self.times.each_ref().map(|times| times[times.len() / 2])
    }

    /// The median of the ratios, and their quartiles in brackets.
    pub fn in_words(&self) -> String {
        let at = |part: usize| self.ratios[self.ratios.len() * part / 4];
        format!("{:.2} ({:.2}, {:.2})", at(2), at(1), at(3))
    }
}

#[cfg(test)]
mod tests {
    use super::*;

    /// Each takes its turn at being first, and all but pair 0 count.
    #[test]
    fn calls_in_turn() {
        let mut calls = Vec::new();
        let pairs = time(3, |pair, which| {
            calls.push((pair, which));
            match which {
                0 => 2.0,
                _ => (2 * pair) as f64,
            }
        });
        let due = [0, 1, 1, 0, 0, 1, 1, 0].into_iter().enumerate();
        let due: Vec<(usize, usize)> = due.map(|(at, which)| (at / 2, which)).collect();
        assert_eq!(calls, due);
        assert_eq!((pairs.count(), pairs.ratio()), (3, 2.0));
        assert_eq!(pairs.medians(), [2.0, 4.0]);
        assert_eq!(pairs.in_words(), "2.00 (1.00, 3.00)");
    }

    #[test]
    fn pairs_of_a_side() {
        assert_eq!([17, 256, 512, 2048].map(pairs_for), [1000, 1000, 457, 60]);
    }
}
