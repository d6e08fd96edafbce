//! Damage to the words of a sound table. Some of it leaves the table sound: the check must see that as well.
use crate::random::Random;
use crate::rects::Tile;
use crate::tables::Sample;
use crate::words::*;

/// A way to come from a sound table to another table; it makes nothing where the table gives no occasion.
pub struct Damage {
    /// What was done, for the report.
    pub name: &'static str,
    /// Does it.
    pub make: fn(&Sample, &mut Random) -> Option<Vec<i32>>,
}

/// Damage to the words of a table, not to the tiles they stand for.
pub const WORD_DAMAGES: [Damage; 31] = [
    Damage { name: "a word changed by one", make: nudged_word },
    Damage { name: "a word at a limit", make: limit_word },
    Damage { name: "a random word", make: random_word },
    Damage { name: "several words from other records", make: several_words },
    Damage { name: "two records exchanged", make: exchanged_records },
    Damage { name: "two records exchanged, stitches too", make: renumbered_records },
    Damage { name: "a record doubled over another", make: doubled_record },
    Damage { name: "a record doubled into a free one", make: doubled_into_free },
    Damage { name: "a record cleared", make: cleared_record },
    Damage { name: "a stitch to another record", make: stitch_elsewhere },
    Damage { name: "a stitch's own stitch", make: stitch_one_further },
    Damage { name: "a stitch of a cell nearby", make: stitch_near },
    Damage { name: "one stitch of all records nearby", make: all_stitches_near },
    Damage { name: "a stitch of -1", make: stitch_off },
    Damage { name: "a stitch to a free record", make: stitch_to_free },
    Damage { name: "a stitch out of range", make: stitch_out_of_range },
    Damage { name: "two stitches exchanged", make: exchanged_stitches },
    Damage { name: "stitches in a ring", make: ring },
    Damage { name: "an edge moved", make: moved_edge },
    Damage { name: "an edge on another tile's edge", make: borrowed_edge },
    Damage { name: "a solid's label changed", make: solid_label },
    Damage { name: "space with a label", make: space_label },
    Damage { name: "a kind that is none", make: no_kind },
    Damage { name: "solid and space exchanged", make: other_kind },
    Damage { name: "garbage in a free record", make: garbage_in_free },
    Damage { name: "the plane turned half round", make: turned },
    Damage { name: "x and y exchanged", make: axes_exchanged },
    Damage { name: "the plane shifted", make: shifted },
    Damage { name: "all words random", make: all_random },
    Damage { name: "all words small", make: all_small },
    Damage { name: "all words equal", make: all_equal },
];

fn changed(sample: &Sample, change: impl FnOnce(&mut [Record])) -> Option<Vec<i32>> {
    let mut words = sample.table.clone();
    change(records_mut(&mut words));
    Some(words)
}

fn places(sample: &Sample, wanted: impl Fn(i32) -> bool) -> Vec<usize> {
    let table = records(&sample.table).iter().enumerate();
    table.filter(|(_, record)| wanted(record[KIND])).map(|(place, _)| place).collect()
}

fn used(sample: &Sample) -> Vec<usize> {
    places(sample, |kind| kind != FREE)
}

/// Mostly a used record, since damage to a free one is seen at once.
fn any_place(sample: &Sample, random: &mut Random) -> usize {
    if random.one_in(8) {
        return random.below(sample.records());
    }
    random.pick(&used(sample))
}

fn set_word(sample: &Sample, place: usize, word: usize, value: i32) -> Option<Vec<i32>> {
    changed(sample, |table| table[place][word] = value)
}

fn nudged_word(sample: &Sample, random: &mut Random) -> Option<Vec<i32>> {
    let (place, word) = (any_place(sample, random), random.below(RECORD_WORDS));
    let old = records(&sample.table)[place][word];
    set_word(sample, place, word, old.wrapping_add(random.pick(&[1, -1])))
}

fn limit_word(sample: &Sample, random: &mut Random) -> Option<Vec<i32>> {
    let count = sample.records() as i32;
    let limits =
        [i32::MIN, i32::MAX, EDGE, -EDGE, EDGE + 1, -EDGE - 1, EDGE - 1, -EDGE + 1, count, count - 1, -2, -1, 0, 1, 2];
    set_word(sample, any_place(sample, random), random.below(RECORD_WORDS), random.pick(&limits))
}

fn random_word(sample: &Sample, random: &mut Random) -> Option<Vec<i32>> {
    set_word(sample, any_place(sample, random), random.below(RECORD_WORDS), random.word())
}

fn several_words(sample: &Sample, random: &mut Random) -> Option<Vec<i32>> {
    changed(sample, |table| {
        for _ in 0..2 + random.below(4) {
            let word = random.below(RECORD_WORDS);
            table[any_place(sample, random)][word] = table[any_place(sample, random)][word];
        }
    })
}

fn exchanged_records(sample: &Sample, random: &mut Random) -> Option<Vec<i32>> {
    let (one, other) = (any_place(sample, random), any_place(sample, random));
    changed(sample, |table| table.swap(one, other))
}

fn renumbered_records(sample: &Sample, random: &mut Random) -> Option<Vec<i32>> {
    let (one, other) = (any_place(sample, random), random.below(sample.records()));
    changed(sample, |table| {
        table.swap(one, other);
        for record in table.iter_mut().filter(|record| record[KIND] != FREE) {
            for stitch in STITCHES {
                record[stitch] = match record[stitch] {
                    named if named == one as i32 => other as i32,
                    named if named == other as i32 => one as i32,
                    named => named,
                };
            }
        }
    })
}

fn doubled_record(sample: &Sample, random: &mut Random) -> Option<Vec<i32>> {
    let (from, to) = (any_place(sample, random), any_place(sample, random));
    changed(sample, |table| table[to] = table[from])
}

fn doubled_into_free(sample: &Sample, random: &mut Random) -> Option<Vec<i32>> {
    let to = random.pick_some(&places(sample, |kind| kind == FREE))?;
    let from = random.pick(&used(sample));
    changed(sample, |table| table[to] = table[from])
}

fn cleared_record(sample: &Sample, random: &mut Random) -> Option<Vec<i32>> {
    let place = random.pick(&used(sample));
    changed(sample, |table| table[place] = [0; RECORD_WORDS])
}

fn set_stitch(sample: &Sample, random: &mut Random, value: i32) -> Option<Vec<i32>> {
    set_word(sample, random.pick(&used(sample)), random.pick(&STITCHES), value)
}

fn stitch_elsewhere(sample: &Sample, random: &mut Random) -> Option<Vec<i32>> {
    let value = random.pick(&used(sample)) as i32;
    set_stitch(sample, random, value)
}

/// The next tile along the same side is the likeliest mistake of a walk.
fn stitch_one_further(sample: &Sample, random: &mut Random) -> Option<Vec<i32>> {
    let table = records(&sample.table);
    let (place, stitch) = (random.pick(&used(sample)), random.pick(&STITCHES));
    let named = usize::try_from(table[place][stitch]).ok()?;
    set_word(sample, place, stitch, table[named][random.pick(&STITCHES)])
}

fn holder_near(table: &[Record], record: &Record, stitch: usize, (dx, dy): (i32, i32)) -> i32 {
    let (x, y) = Tile::of_record(record).rect.stitch_cells()[stitch - TR];
    let near = (x + dx, y + dy);
    let holds = |other: &Record| other[KIND] != FREE && Tile::of_record(other).rect.holds(near);
    table.iter().position(holds).map_or(NO_TILE, |place| place as i32)
}

fn near_offset(random: &mut Random) -> (i32, i32) {
    random.pick(&[(1, 0), (-1, 0), (0, 1), (0, -1), (1, 1), (-1, -1), (1, -1), (-1, 1)])
}

fn stitch_near(sample: &Sample, random: &mut Random) -> Option<Vec<i32>> {
    let table = records(&sample.table);
    let (place, stitch) = (random.pick(&used(sample)), random.pick(&STITCHES));
    set_word(sample, place, stitch, holder_near(table, &table[place], stitch, near_offset(random)))
}

fn all_stitches_near(sample: &Sample, random: &mut Random) -> Option<Vec<i32>> {
    let (stitch, offset) = (random.pick(&STITCHES), near_offset(random));
    let old = records(&sample.table);
    changed(sample, |table| {
        for record in table.iter_mut().filter(|record| record[KIND] != FREE) {
            record[stitch] = holder_near(old, record, stitch, offset);
        }
    })
}

fn stitch_off(sample: &Sample, random: &mut Random) -> Option<Vec<i32>> {
    set_stitch(sample, random, NO_TILE)
}

fn stitch_to_free(sample: &Sample, random: &mut Random) -> Option<Vec<i32>> {
    let value = random.pick_some(&places(sample, |kind| kind == FREE))? as i32;
    set_stitch(sample, random, value)
}

fn stitch_out_of_range(sample: &Sample, random: &mut Random) -> Option<Vec<i32>> {
    let count = sample.records() as i32;
    let value = random.pick(&[count, count + 1, 10 * count, i32::MAX, -2, -count, i32::MIN]);
    set_stitch(sample, random, value)
}

fn exchanged_stitches(sample: &Sample, random: &mut Random) -> Option<Vec<i32>> {
    let place = random.pick(&used(sample));
    let (one, other) = (random.pick(&STITCHES), random.pick(&STITCHES));
    changed(sample, |table| table[place].swap(one, other))
}

/// Walks that trust a stitch never end here.
fn ring(sample: &Sample, random: &mut Random) -> Option<Vec<i32>> {
    let (one, other) = (random.pick(&used(sample)), random.pick(&used(sample)));
    let stitch = random.pick(&STITCHES);
    changed(sample, |table| {
        table[one][stitch] = other as i32;
        table[other][stitch] = one as i32;
    })
}

fn moved_edge(sample: &Sample, random: &mut Random) -> Option<Vec<i32>> {
    let (place, edge) = (random.pick(&used(sample)), random.pick(&[LEFT, BOTTOM, RIGHT, TOP]));
    let by = random.between(-9, 9);
    set_word(sample, place, edge, records(&sample.table)[place][edge] + by)
}

fn borrowed_edge(sample: &Sample, random: &mut Random) -> Option<Vec<i32>> {
    let (place, other) = (random.pick(&used(sample)), random.pick(&used(sample)));
    let (edge, from) =
        random.pick(&[(LEFT, RIGHT), (RIGHT, LEFT), (BOTTOM, TOP), (TOP, BOTTOM), (LEFT, LEFT), (TOP, TOP)]);
    set_word(sample, place, edge, records(&sample.table)[other][from])
}

fn solid_label(sample: &Sample, random: &mut Random) -> Option<Vec<i32>> {
    let place = random.pick_some(&places(sample, |kind| kind == SOLID))?;
    set_word(sample, place, LABEL, random.pick(&[0, -1, i32::MIN, 1, 2, 77, i32::MAX]))
}

fn space_label(sample: &Sample, random: &mut Random) -> Option<Vec<i32>> {
    let place = random.pick_some(&places(sample, |kind| kind == SPACE))?;
    set_word(sample, place, LABEL, random.pick(&[1, -1, 2, i32::MIN, i32::MAX]))
}

fn no_kind(sample: &Sample, random: &mut Random) -> Option<Vec<i32>> {
    set_word(sample, any_place(sample, random), KIND, random.pick(&[0, 3, 4, -1, -2, 257, 258, i32::MIN, i32::MAX]))
}

fn other_kind(sample: &Sample, random: &mut Random) -> Option<Vec<i32>> {
    let place = random.pick(&used(sample));
    changed(sample, |table| {
        let (kind, label) = if table[place][KIND] == SOLID { (SPACE, 0) } else { (SOLID, random.between(1, 3)) };
        table[place][KIND] = kind;
        table[place][LABEL] = label;
    })
}

fn garbage_in_free(sample: &Sample, random: &mut Random) -> Option<Vec<i32>> {
    let place = random.pick_some(&places(sample, |kind| kind == FREE))?;
    let word = random.pick(&[LEFT, BOTTOM, RIGHT, TOP, TR, RT, BL, LB, LABEL]);
    set_word(sample, place, word, random.pick(&[1, -1, i32::MIN, i32::MAX, EDGE]))
}

fn redrawn(sample: &Sample, redraw: impl Fn(Record) -> Record) -> Option<Vec<i32>> {
    changed(sample, |table| {
        for record in table.iter_mut().filter(|record| record[KIND] != FREE) {
            *record = redraw(*record);
        }
    })
}

/// Strips stay strips, so this leaves the table sound.
fn turned(sample: &Sample, _: &mut Random) -> Option<Vec<i32>> {
    redrawn(sample, |[left, bottom, right, top, tr, rt, bl, lb, kind, label]| {
        [-right, -top, -left, -bottom, bl, lb, tr, rt, kind, label]
    })
}

/// A right cover with right stitches, but space in columns where strips are wanted.
fn axes_exchanged(sample: &Sample, _: &mut Random) -> Option<Vec<i32>> {
    redrawn(sample, |[left, bottom, right, top, tr, rt, bl, lb, kind, label]| {
        [bottom, left, top, right, rt, tr, lb, bl, kind, label]
    })
}

fn shifted(sample: &Sample, random: &mut Random) -> Option<Vec<i32>> {
    let (dx, dy) = near_offset(random);
    redrawn(sample, |mut record| {
        record[LEFT] += dx;
        record[RIGHT] += dx;
        record[BOTTOM] += dy;
        record[TOP] += dy;
        record
    })
}

fn all_random(sample: &Sample, random: &mut Random) -> Option<Vec<i32>> {
    Some(sample.table.iter().map(|_| random.word()).collect())
}

fn all_small(sample: &Sample, random: &mut Random) -> Option<Vec<i32>> {
    let most = random.pick(&[1, 2, 3, sample.records() as i32]);
    Some(sample.table.iter().map(|_| random.between(-1, most)).collect())
}

fn all_equal(sample: &Sample, random: &mut Random) -> Option<Vec<i32>> {
    Some(vec![random.pick(&[0, 0, 1, 2, -1, EDGE, i32::MIN, i32::MAX]); sample.table.len()])
}
