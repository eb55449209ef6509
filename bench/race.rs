//! A race: each runner in turn, round after round, and the median over the rounds of the ratio within a round. What else the machine
//! does slows the runners of a round alike.
use std::time::Instant;

pub struct Runner<'a> {
    pub name: &'static str,
    pub go: Box<dyn FnMut() + 'a>,
}

pub fn runner<'a>(name: &'static str, go: impl FnMut() + 'a) -> Runner<'a> {
    Runner { name, go: Box::new(go) }
}

pub struct Raced {
    pub nanoseconds: f64,
    /// Of this runner to the first.
    pub ratio: f64,
}

const TURN: u128 = 200_000; // nanoseconds that a turn takes at least, so that the clock is not what is measured

fn turns(go: &mut dyn FnMut()) -> u32 {
    let mut k = 1;
    loop {
        let from = Instant::now();
        for _ in 0..k {
            go();
        }
        if from.elapsed().as_nanos() > TURN {
            return k;
        }
        k *= 2;
    }
}

fn median(mut v: Vec<f64>) -> f64 {
    v.sort_by(|a, b| a.total_cmp(b));
    v[v.len() / 2]
}

pub fn race(rounds: usize, runners: &mut [Runner]) -> Vec<Raced> {
    let counts: Vec<u32> = runners.iter_mut().map(|r| turns(&mut r.go)).collect();
    let mut times = vec![Vec::new(); runners.len()];
    for _ in 0..rounds {
        for ((r, k), t) in runners.iter_mut().zip(&counts).zip(&mut times) {
            let from = Instant::now();
            for _ in 0..*k {
                (r.go)();
            }
            t.push(from.elapsed().as_nanos() as f64 / *k as f64);
        }
    }
    let raced = |t: &Vec<f64>| Raced {
        nanoseconds: median(t.clone()),
        ratio: median(t.iter().zip(&times[0]).map(|(a, b)| a / b).collect()),
    };
    times.iter().map(raced).collect()
}
