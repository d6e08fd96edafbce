//! Fresh, on lent words that are full of other numbers and lie between words that are not lent.
use crate::{scaled, size_fits, Report, NAMED_SIZES};
use ushanderi_host::calls::{self, number, Answer};
use ushanderi_host::lent::Lent;
use ushanderi_host::plain;
use ushanderi_host::random::Random;
use ushanderi_host::tally::agree;
use ushanderi_host::words::{EDGE, MOST_RECORDS, RECORD_WORDS};

type Fresh = fn(&mut [i32]) -> Answer;

const PROGRAMS: [(&str, Fresh); 2] = [("the server", calls::fresh), ("the plain program", plain::fresh)];

const RANDOM_SIZES: usize = 4_000;

pub fn run(scale: f64) -> Report {
    let mut random = Random::new(1);
    let mut sizes = NAMED_SIZES.to_vec();
    sizes.extend(0..=450);
    sizes.extend((0..=MOST_RECORDS + 20).map(|records| records * RECORD_WORDS));
    sizes.extend((0..scaled(RANDOM_SIZES, scale)).map(|_| random.below(MOST_RECORDS * RECORD_WORDS + 900)));
    let mut taken = 0;
    for &size in &sizes {
        taken += usize::from(try_size(size, &mut random)?);
    }
    Ok(vec![format!("{} sizes, {taken} taken, {} refused with nothing written", sizes.len(), sizes.len() - taken)])
}

fn try_size(size: usize, random: &mut Random) -> Result<bool, String> {
    let before: Vec<i32> = (0..size).map(|_| random.word()).collect();
    let fits = size_fits(size);
    let wanted = if fits { Answer::done(0) } else { Answer::refused(number::SIZE) };
    for (program, fresh) in PROGRAMS {
        let about = |message: String| format!("{program}: {size} words: {message}");
        let mut lent = Lent::new(&before, random.word());
        let answer = fresh(lent.for_writing());
        agree(answer == wanted, || about(format!("{answer:?}, wanted {wanted:?}")))?;
        let after = lent.after("fresh's table", if fits { 0..size } else { 0..0 }).map_err(about)?;
        agree(!fits || after == fresh_plane(size), || about("not a fresh plane".to_string()))?;
        let checked = calls::check(after);
        agree(checked == wanted, || about(format!("check after fresh: {checked:?}, wanted {wanted:?}")))?;
    }
    Ok(fits)
}

/// What fresh leaves.
pub fn fresh_plane(size: usize) -> Vec<i32> {
    let mut words = vec![-EDGE, -EDGE, EDGE, EDGE, -1, -1, -1, -1, 1, 0];
    words.resize(size, 0);
    words
}
