//! Medians of interleaved samples: the three programs take turns within a pass, and the sizes from pass to pass.
use std::hint::black_box;
use std::sync::atomic::{AtomicBool, Ordering};
use std::time::Instant;

const PASSES: usize = 7;
const ROUNDS: usize = 11;
const WARM_UP: usize = 2;
const QUICK_ROUNDS: usize = 2;
/// How long a sample takes about, so that the clock's own time does not count.
const SAMPLE_SECONDS: f64 = 200e-6;
const MOST_REPEATS: usize = 256;

/// The median times of one call, in microseconds, and the medians of the ratios of samples taken right after each
/// other, which a disturbance that lasts longer than a sample does not change.
pub struct Medians {
    pub server: f64,
    pub plain: f64,
    pub list: f64,
    pub to_plain: f64,
    pub to_list: f64,
}

impl Medians {
    fn of_rounds(rounds: &[[f64; 3]]) -> Medians {
        let of = |figure: fn(&[f64; 3]) -> f64| median(rounds.iter().map(figure));
        Medians {
            server: of(|[server, _, _]| *server),
            plain: of(|[_, plain, _]| *plain),
            list: of(|[_, _, list]| *list),
            to_plain: of(|[server, plain, _]| server / plain),
            to_list: of(|[server, _, list]| server / list),
        }
    }

    pub fn of_passes(passes: &[Medians]) -> Medians {
        let of = |figure: fn(&Medians) -> f64| median(passes.iter().map(figure));
        Medians {
            server: of(|pass| pass.server),
            plain: of(|pass| pass.plain),
            list: of(|pass| pass.list),
            to_plain: of(|pass| pass.to_plain),
            to_list: of(|pass| pass.to_list),
        }
    }
}

pub fn median(figures: impl Iterator<Item = f64>) -> f64 {
    let mut figures: Vec<f64> = figures.collect();
    figures.sort_by(f64::total_cmp);
    figures[figures.len() / 2]
}

/// Makes so many calls and gives the seconds that they took together.
pub type Sample<'a> = &'a mut dyn FnMut(usize) -> f64;

/// Takes an answer that nothing is done with, so that the optimizer has to work it out.
pub fn consumed<T>(answer: T) {
    drop(black_box(answer));
}

/// The seconds of so many calls, one right after the other; a call gets its number among them.
pub fn repeated(times: usize, mut call: impl FnMut(usize)) -> f64 {
    let start = Instant::now();
    (0..times).for_each(&mut call);
    start.elapsed().as_secs_f64()
}

/// The same for calls that change what they work on: each gets a copy of its own, made before the clock starts.
pub fn on_copies<T: Clone>(times: usize, original: &T, mut call: impl FnMut(&mut T, usize)) -> f64 {
    let mut copies = vec![original.clone(); times];
    let start = Instant::now();
    for (number, copy) in copies.iter_mut().enumerate() {
        call(copy, number);
    }
    start.elapsed().as_secs_f64()
}

static QUICK: AtomicBool = AtomicBool::new(false);

/// From now on only a few samples are taken.
pub fn be_quick() {
    QUICK.store(true, Ordering::Relaxed);
}

pub fn quick() -> bool {
    QUICK.load(Ordering::Relaxed)
}

/// How many rounds a pass has; those that warm up are not counted.
pub struct Rounds {
    pub warm_up: usize,
    pub counted: usize,
}

impl Rounds {
    pub fn now() -> Rounds {
        if quick() {
            Rounds { warm_up: 0, counted: QUICK_ROUNDS }
        } else {
            Rounds { warm_up: WARM_UP, counted: ROUNDS }
        }
    }
}

/// How often every size has its turn.
pub fn passes() -> usize {
    if quick() {
        1
    } else {
        PASSES
    }
}

pub fn medians<'a>(server: Sample<'a>, plain: Sample<'a>, list: Sample<'a>) -> Medians {
    let mut samples = [server, plain, list];
    let repeats = samples.each_mut().map(repeats);
    let Rounds { warm_up, counted } = Rounds::now();
    let mut round =
        || std::array::from_fn(|program| samples[program](repeats[program]) * 1e6 / repeats[program] as f64);
    (0..warm_up).for_each(|_| consumed(round()));
    Medians::of_rounds(&(0..counted).map(|_| round()).collect::<Vec<_>>())
}

fn repeats(sample: &mut Sample) -> usize {
    let seconds = sample(4) / 4.0;
    ((SAMPLE_SECONDS / seconds.max(1e-9)) as usize).clamp(1, MOST_REPEATS)
}
