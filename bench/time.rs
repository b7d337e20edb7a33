// Times of the proved call and of each way to write it in Rust, taken in turn.
use std::hint::black_box;
use std::time::Instant;

// A way by its name, and its work on a piece of the inputs: the seconds it took and the sum of its answers.
pub struct Way<'a> {
    name: &'static str,
    work: Box<dyn Fn(usize) -> (f64, i64) + 'a>,
}

impl<'a> Way<'a> {
    pub fn new(name: &'static str, work: impl Fn(usize) -> (f64, i64) + 'a) -> Self {
        Way { name, work: Box::new(work) }
    }
}

#[inline(always)]
pub fn clocked(work: impl FnOnce() -> i64) -> (f64, i64) {
    let clock = Instant::now();
    let sum = black_box(work());
    (clock.elapsed().as_secs_f64(), sum)
}

// Nanoseconds a call.
pub struct Timed {
    pub ours: f64,
    pub ways: Vec<(&'static str, f64)>,
}

impl Timed {
    // The fastest of the ways in Rust.
    pub fn rust(&self) -> f64 {
        self.ways.iter().map(|way| way.1).fold(f64::INFINITY, f64::min)
    }

    // Way by way the better of two.
    fn better(mut self, other: Timed) -> Timed {
        self.ours = self.ours.min(other.ours);
        for (way, other) in self.ways.iter_mut().zip(other.ways) {
            way.1 = way.1.min(other.1);
        }
        self
    }
}

pub type Job<'a> = Box<dyn Fn() -> Option<Timed> + 'a>;

// All jobs in turn, several times over, so that a busy moment of the machine does not fall on one alone.
pub fn best_of(times: usize, jobs: &[Job]) -> Vec<Option<Timed>> {
    let mut best: Vec<Option<Timed>> = jobs.iter().map(|job| job()).collect();
    for _ in 1..times {
        for (best, job) in best.iter_mut().zip(jobs) {
            *best = best.take().zip(job()).map(|(best, timed)| best.better(timed));
        }
    }
    best
}

pub struct Plan {
    pub rounds: usize,
    pub pieces: usize,
    pub calls: usize, // in a piece
}

// Each way in turn on each piece, round after round; the best time of each piece counts. The first way is the proved one.
pub fn best(plan: Plan, ways: &[Way]) -> Timed {
    let mut best = vec![vec![f64::INFINITY; plan.pieces]; ways.len()];
    for _ in 0..plan.rounds {
        for piece in 0..plan.pieces {
            let mut sums = Vec::new();
            for (way, best) in ways.iter().zip(&mut best) {
                let (took, sum) = (way.work)(piece);
                best[piece] = best[piece].min(took);
                sums.push(sum);
            }
            assert!(sums.iter().all(|&sum| sum == sums[0]), "the answers differ: {sums:?}");
        }
    }
    let each = |times: &Vec<f64>| times.iter().sum::<f64>() * 1e9 / (plan.pieces * plan.calls) as f64;
    let rust = ways.iter().zip(&best).skip(1);
    Timed { ours: each(&best[0]), ways: rust.map(|(way, times)| (way.name, each(times))).collect() }
}
