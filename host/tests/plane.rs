//! `Plane` against the rectangle-list program, through one long history: its methods hand on what the calls answer.
use std::collections::HashSet;
use ushanderi_host::calls::{number, MetAnswer};
use ushanderi_host::random::Random;
use ushanderi_host::rects::{tiles, Solid};
use ushanderi_host::{answers, asks, BadRecord, Densities, Density, LoadRefusal, Plane, Rect, Refusal, Side, Tile};

const ROOM: usize = 30;
const MOST_WINDOWS: usize = 1_000;
const STEPS: usize = 600;
const SIDES: [Side; 4] = [Side::Right, Side::Left, Side::Top, Side::Bottom];

#[test]
fn a_long_history() {
    let mut random = Random::new(21);
    let mut plane = Plane::with_room(ROOM).expect("a table of this size");
    let mut picture = Vec::new();
    for _ in 0..STEPS {
        let all = tiles(&picture);
        if random.one_in(3) {
            let (x, y) = asks::cell(&all, &mut random);
            assert_eq!(plane.delete(x, y).ok(), answers::delete(&mut picture, (x, y)).ok());
        } else {
            create(&mut plane, &mut picture, asks::solid(&all, &mut random));
        }
        assert_eq!(plane.check(), Ok(picture.len()));
        ask(&plane, &picture, &mut random);
        ask_density(&plane, &picture, &mut random);
        come_back(&plane, &picture);
    }
}

fn create(plane: &mut Plane, picture: &mut Vec<Solid>, solid: Solid) {
    let tile = Tile::solid(solid.rect, solid.label);
    match (plane.create(solid.rect, solid.label), answers::create(picture, ROOM, solid)) {
        (Ok(record), Ok(())) => assert_eq!(plane.tile(record), Some(tile)),
        (Err(Refusal::Occupied { by, cell }), Err(refused)) => {
            let met = refused.met.expect("something is in the way");
            assert_eq!(plane.tile(by), Some(Tile::solid(met.solid.rect, met.solid.label)));
            assert_eq!(cell, met.cell);
        }
        (answer, wanted) => assert!(answer.is_err() && wanted.is_err(), "{answer:?}, wanted {wanted:?}"),
    }
}

fn ask(plane: &Plane, picture: &[Solid], random: &mut Random) {
    let all = tiles(picture);
    let ((x, y), area) = (asks::cell(&all, random), asks::area(&all, random));
    let read = |records: Vec<usize>| -> Vec<Tile> {
        records.into_iter().map(|record| plane.tile(record).expect("an answer names a tile")).collect()
    };
    let near = random.below(200);
    let found = plane.find_near(x, y, near);
    assert_eq!(found, plane.find(x, y));
    assert_eq!(found.ok().and_then(|record| plane.tile(record)), answers::find(&all, (x, y)).ok());
    for (number, side) in SIDES.into_iter().enumerate() {
        let beside = plane.neighbours(x, y, side).ok().map(read);
        assert_eq!(beside, answers::neighbours(&all, (x, y), number as i32).ok());
    }
    assert_eq!(plane.enumerate(area).ok().map(read), answers::enumerate(&all, &area).ok());
    let met = answers::search(picture, &area).map(|met| met.map(|met| (Some(met.solid.rect), met.cell)));
    let rect = |record: usize| plane.tile(record).map(|tile| tile.rect);
    let searched = plane.search(area).map(|met| met.map(|met| (rect(met.record), met.cell)));
    assert_eq!(searched.ok(), met.ok());
}

fn ask_density(plane: &Plane, picture: &[Solid], random: &mut Random) {
    let (area, width, height) = asks::windows(&tiles(picture), random);
    if area.windows(width, height).is_some_and(|windows| windows.len() > MOST_WINDOWS) {
        return;
    }
    let (report, shares) = answers::density(picture, area, width, height, MOST_WINDOWS);
    let wanted = report.result().map(|report| Densities {
        shares,
        lowest: report.lowest,
        highest: report.highest,
        covered: report.covered as u64,
    });
    assert_eq!(plane.density(area, width, height), wanted);
}

/// The least and the most that a window can have which is neither bare nor filled, up to the whole plane.
#[test]
fn a_share_tells_the_density() {
    for cells in [1, 2, 3, 1_000, (1 << 50) - 1, 1 << 50] {
        for covered in [0, 1, cells - 1, cells] {
            let density = Density::of(covered, cells);
            assert_eq!(density == Density::Bare, covered == 0);
            assert_eq!(density == Density::Filled, covered == cells);
            assert_eq!(Density::told_by(density.share()), density);
        }
    }
}

fn come_back(plane: &Plane, picture: &[Solid]) {
    let bytes = plane.save();
    assert_eq!(bytes, answers::save(picture));
    let mut copy = Plane::with_room(ROOM).expect("a table of this size");
    assert_eq!(copy.load(&bytes), Ok(picture.len()));
    assert_eq!(copy.save(), bytes);
    let mut same = Plane::from_words(copy.into_words()).expect("a plane's words are sound");
    assert_eq!(same.solids(), picture.len());
    same.fresh();
    assert_eq!(same.tile(0), Some(Tile::space(Rect::PLANE)));
    assert_eq!(same.save(), []);
}

/// The numbers and the words of refusals: a number without a refusal of its own would show here.
#[test]
fn every_refusal_has_its_words() {
    let refused = |number: usize| MetAnswer { number: number as i32, value: 5, x: -7, y: 8 };
    let refusals = (1..number::NAMES.len()).map(|number| refused(number).result().expect_err("a refusal"));
    let words: HashSet<String> = refusals.map(|refusal| refusal.to_string()).collect();
    assert_eq!(words.len(), number::NAMES.len() - 1);
    assert_eq!(refused(6).result(), Err(Refusal::Occupied { by: 5, cell: (-7, 8) }));
    assert_eq!(refused(10).result(), Err(Refusal::Short { needed: 5 }));

    let loads = (1..number::NAMES.len()).map(|number| refused(number).load_result().expect_err("a refusal"));
    let bad = loads.filter(|refusal| matches!(refusal, LoadRefusal::Record { index: 5, .. }));
    let words: Vec<String> = bad.map(|refusal| refusal.to_string()).collect();
    assert_eq!(words.len(), 4);
    assert!(words.iter().all(|words| words.starts_with("saved record 5 ")));
}

#[test]
fn every_refused_load() {
    let mut plane = Plane::with_room(1).expect("a table of this size");
    let solid = |left, right, label| answers::save(&[Solid { rect: Rect::new(left, 0, right, 1), label }]);
    let bad = |why| Err(LoadRefusal::Record { index: 1, why });
    let first = solid(0, 5, 1);
    assert_eq!(plane.load(&[first.clone(), solid(9, 9, 1)].concat()), bad(BadRecord::Rect));
    assert_eq!(plane.load(&[first.clone(), solid(8, 9, 0)].concat()), bad(BadRecord::Label));
    assert_eq!(plane.load(&[first.clone(), solid(4, 9, 1)].concat()), bad(BadRecord::Occupied));
    assert_eq!(plane.load(&[first.clone(), solid(8, 9, 1)].concat()), bad(BadRecord::Full));
    assert_eq!(plane.load(&first[1..]), Err(LoadRefusal::Nothing(Refusal::File)));
    assert_eq!(plane.load(&first), Ok(1));
}
