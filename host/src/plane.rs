//! A plane that owns its table. Its words cannot be reached from outside but through the server's own calls, so the
//! table is sound at all times, and the refusals for size and soundness are met only where words come in.
use crate::answers::SAVED_BYTES;
use crate::calls;
use crate::density::Densities;
use crate::rects::{Rect, Tile};
use crate::refusal::{LoadRefusal, Refusal};
use crate::words::{most_solids, records_for, FREE, KIND, MOST_RECORDS, NO_TILE, RECORD_WORDS, STITCHES};

/// The most solids that any table takes.
pub const MOST_SOLIDS: usize = most_solids(MOST_RECORDS);

/// One side of a tile, with the order in which the neighbours along it are listed.
#[derive(Clone, Copy, Debug, PartialEq, Eq)]
pub enum Side {
    /// From top to bottom.
    Right = 0,
    /// From bottom to top.
    Left = 1,
    /// From right to left.
    Top = 2,
    /// From left to right.
    Bottom = 3,
}

/// What blocks an area.
#[derive(Clone, Copy, Debug, PartialEq, Eq)]
pub struct Met {
    /// The record of the solid that holds the cell.
    pub record: usize,
    /// The first occupied cell of the area, rows read from the top down and each row from left to right.
    pub cell: (i32, i32),
}

/// A layout on one mask layer: solids, and the space between them in strips.
///
/// ```
/// use ushanderi_host::{Met, Plane, Rect, Refusal, Side};
///
/// let mut plane = Plane::with_room(100)?;
/// let trunk = plane.create(Rect::new(0, 0, 10, 100), 1)?;
/// let branch = plane.create(Rect::new(10, 40, 60, 45), 1)?;
///
/// assert_eq!(plane.solids(), 2);
/// assert_eq!(plane.find(5, 50)?, trunk);
/// assert_eq!(plane.search(Rect::new(20, 50, 60, 90))?, None);
/// assert_eq!(plane.search(Rect::new(20, 30, 60, 90))?, Some(Met { record: branch, cell: (20, 44) }));
/// assert_eq!(plane.neighbours(5, 50, Side::Right)?[1], branch);
/// assert_eq!(plane.create(Rect::new(50, 30, 70, 60), 2), Err(Refusal::Occupied { by: branch, cell: (50, 44) }));
/// # Ok::<(), Refusal>(())
/// ```
#[derive(Clone, Debug)]
pub struct Plane {
    words: Vec<i32>,
}

impl Plane {
    /// An empty plane that takes so many solids; up to [`MOST_SOLIDS`], or the refusal is [`Refusal::Size`].
    ///
    /// ```
    /// use ushanderi_host::{Plane, Refusal, MOST_SOLIDS};
    ///
    /// assert_eq!(Plane::with_room(400)?.room(), 400);
    /// assert_eq!(Plane::with_room(0)?.room(), 1); // the smallest table takes one
    /// assert_eq!(Plane::with_room(MOST_SOLIDS + 1).err(), Some(Refusal::Size));
    /// # Ok::<(), Refusal>(())
    /// ```
    pub fn with_room(solids: usize) -> Result<Plane, Refusal> {
        if solids > MOST_SOLIDS {
            return Err(Refusal::Size);
        }
        let mut plane = Plane { words: vec![0; records_for(solids) * RECORD_WORDS] };
        plane.fresh();
        Ok(plane)
    }

    /// Takes over the words of a table, if they are sound.
    ///
    /// ```
    /// use ushanderi_host::{Plane, Refusal};
    ///
    /// let words = Plane::with_room(3)?.into_words();
    /// assert_eq!(Plane::from_words(words)?.solids(), 0);
    /// assert_eq!(Plane::from_words(vec![0; 200]).err(), Some(Refusal::Unsound));
    /// # Ok::<(), Refusal>(())
    /// ```
    pub fn from_words(words: Vec<i32>) -> Result<Plane, Refusal> {
        let plane = Plane { words };
        plane.check()?;
        Ok(plane)
    }

    /// The table's words.
    pub fn words(&self) -> &[i32] {
        &self.words
    }

    /// Gives the table's words away.
    pub fn into_words(self) -> Vec<i32> {
        self.words
    }

    /// How many solids the plane takes.
    pub fn room(&self) -> usize {
        most_solids(self.records())
    }

    /// How many records the table has, used or free.
    pub fn records(&self) -> usize {
        self.words.len() / RECORD_WORDS
    }

    /// Makes the plane empty.
    ///
    /// ```
    /// use ushanderi_host::{Plane, Rect};
    ///
    /// let mut plane = Plane::with_room(10)?;
    /// plane.create(Rect::new(0, 0, 10, 10), 1)?;
    /// plane.fresh();
    /// assert_eq!(plane.solids(), 0);
    /// # Ok::<(), ushanderi_host::Refusal>(())
    /// ```
    pub fn fresh(&mut self) {
        calls::fresh(&mut self.words).result().expect("a plane's table has a right size");
    }

    /// Goes through the whole table: the number of solids if it is sound. A plane's table always is, so a refusal here
    /// tells that something else has written to this program's memory.
    pub fn check(&self) -> Result<usize, Refusal> {
        calls::check(&self.words).result().map(|solids| solids as usize)
    }

    /// How many solids there are.
    pub fn solids(&self) -> usize {
        self.check().expect("a plane's table is sound")
    }

    /// The record of the tile that holds the cell.
    ///
    /// ```
    /// use ushanderi_host::{Plane, Refusal};
    ///
    /// let plane = Plane::with_room(10)?;
    /// assert_eq!(plane.find(0, 0)?, 0);
    /// assert_eq!(plane.find(16_777_216, 0), Err(Refusal::Point));
    /// # Ok::<(), Refusal>(())
    /// ```
    pub fn find(&self, x: i32, y: i32) -> Result<usize, Refusal> {
        self.find_near(x, y, usize::MAX)
    }

    /// The same, from a record that is likely to be near; a number that names no tile does no harm.
    pub fn find_near(&self, x: i32, y: i32, near: usize) -> Result<usize, Refusal> {
        let hint = i32::try_from(near).unwrap_or(NO_TILE);
        calls::find(&self.words, x, y, hint).result().map(|record| record as usize)
    }

    /// The ten words of a record as the table itself shows them; none where it has no record of that number. What the
    /// words are is said in [`crate::words`].
    ///
    /// ```
    /// use ushanderi_host::Plane;
    ///
    /// let plane = Plane::with_room(10)?;
    /// assert_eq!(plane.view(0), [-16_777_216, -16_777_216, 16_777_216, 16_777_216, -1, -1, -1, -1, 1, 0]);
    /// assert_eq!(plane.view(plane.records()), []);
    /// # Ok::<(), ushanderi_host::Refusal>(())
    /// ```
    pub fn view(&self, record: usize) -> &[i32] {
        calls::view(&self.words, i32::try_from(record).unwrap_or(NO_TILE))
    }

    /// The tile in a record, if it holds one.
    ///
    /// ```
    /// use ushanderi_host::{Plane, Rect, Tile};
    ///
    /// let plane = Plane::with_room(10)?;
    /// assert_eq!(plane.tile(0), Some(Tile::space(Rect::PLANE)));
    /// assert_eq!(plane.tile(1), None);
    /// # Ok::<(), ushanderi_host::Refusal>(())
    /// ```
    pub fn tile(&self, record: usize) -> Option<Tile> {
        let words = self.view(record).try_into().ok()?;
        Some(words).filter(|words: &&[i32; RECORD_WORDS]| words[KIND] != FREE).map(Tile::of_record)
    }

    /// The records that tr, rt, bl and lb of a tile name; nothing over the plane's edge.
    pub fn stitches(&self, record: usize) -> [Option<usize>; 4] {
        let words = self.view(record);
        STITCHES.map(|stitch| words.get(stitch).and_then(|&named| usize::try_from(named).ok()))
    }

    /// The records of the tiles along one side of the tile that holds the cell, in the side's order.
    ///
    /// ```
    /// use ushanderi_host::{Plane, Rect, Side};
    ///
    /// let mut plane = Plane::with_room(10)?;
    /// let one = plane.create(Rect::new(0, 0, 10, 10), 1)?;
    /// let other = plane.create(Rect::new(10, 0, 20, 10), 2)?;
    /// assert_eq!(plane.neighbours(3, 3, Side::Right)?, [other]);
    /// assert_eq!(plane.neighbours(13, 3, Side::Left)?, [one]);
    /// # Ok::<(), ushanderi_host::Refusal>(())
    /// ```
    pub fn neighbours(&self, x: i32, y: i32, side: Side) -> Result<Vec<usize>, Refusal> {
        self.listed(|list| calls::neighbours(&self.words, x, y, side as i32, list))
    }

    /// The area's first occupied cell, rows read from the top down and each row from left to right, and the record of
    /// the solid that holds it; nothing if the area is free. The cell is one of the area, so it is not the solid's
    /// upper left one where the solid reaches out of the area there.
    ///
    /// ```
    /// use ushanderi_host::{Met, Plane, Rect, Refusal};
    ///
    /// let mut plane = Plane::with_room(10)?;
    /// let low = plane.create(Rect::new(0, 0, 10, 10), 1)?;
    /// let high = plane.create(Rect::new(20, 5, 30, 15), 2)?;
    /// assert_eq!(plane.search(Rect::new(10, 0, 20, 20))?, None);
    /// assert_eq!(plane.search(Rect::new(0, 0, 30, 20))?, Some(Met { record: high, cell: (20, 14) }));
    /// assert_eq!(plane.search(Rect::new(4, 0, 30, 5))?, Some(Met { record: low, cell: (4, 4) }));
    /// assert_eq!(plane.search(Rect::new(0, 0, 0, 5)), Err(Refusal::Rect));
    /// # Ok::<(), Refusal>(())
    /// ```
    pub fn search(&self, area: Rect) -> Result<Option<Met>, Refusal> {
        let answer = calls::search(&self.words, area.left, area.bottom, area.right, area.top);
        let record = usize::try_from(answer.result()?).ok();
        Ok(record.map(|record| Met { record, cell: answer.cell() }))
    }

    /// The records of the tiles that share a cell with the area, in directed order: those that begin at or before the
    /// area's left are roots, from top to bottom; any other hangs under the tile left of its lowest cell inside the
    /// area; each is followed by what hangs under it, from top to bottom.
    ///
    /// ```
    /// use ushanderi_host::{Plane, Rect};
    ///
    /// let mut plane = Plane::with_room(10)?;
    /// let one = plane.create(Rect::new(0, 0, 10, 10), 1)?;
    /// let other = plane.create(Rect::new(20, 0, 30, 10), 2)?;
    /// let gap = plane.find(15, 5)?;
    /// assert_eq!(plane.enumerate(Rect::new(5, 2, 25, 8))?, [one, gap, other]);
    /// # Ok::<(), ushanderi_host::Refusal>(())
    /// ```
    pub fn enumerate(&self, area: Rect) -> Result<Vec<usize>, Refusal> {
        self.listed(|list| calls::enumerate(&self.words, area.left, area.bottom, area.right, area.top, list))
    }

    /// Lends a list that takes every record there is, so that it is never too short.
    fn listed(&self, call: impl FnOnce(&mut [i32]) -> calls::Answer) -> Result<Vec<usize>, Refusal> {
        let mut list = vec![0; self.records()];
        let count = call(&mut list).result()?;
        Ok(list[..count as usize].iter().map(|&record| record as usize).collect())
    }

    /// How much of each window of the area is metal. Windows have this width and height, which divide the area's sides,
    /// and are taken row by row from the top and each row from left to right. The shares take eight bytes a window:
    /// where there is no memory for them the refusal is [`Refusal::Short`], which tells how many windows there are.
    ///
    /// ```
    /// use ushanderi_host::{Density, Plane, Rect, Refusal};
    ///
    /// let mut plane = Plane::with_room(10)?;
    /// plane.create(Rect::new(0, 0, 10, 10), 1)?;
    /// plane.create(Rect::new(20, 5, 30, 10), 2)?;
    ///
    /// let area = Rect::new(0, 0, 30, 10);
    /// let report = plane.density(area, 10, 10)?;
    /// assert_eq!(report.shares, [1.0, 0.0, 0.5]);
    /// assert!(report.windows().eq([Density::Filled, Density::Bare, Density::Share(0.5)]));
    /// assert_eq!((report.lowest, report.highest, report.covered), (0.0, 1.0, 150));
    /// assert_eq!(plane.density(area, 20, 10), Err(Refusal::Step));
    /// assert_eq!(plane.density(Rect::PLANE, 1, 1), Err(Refusal::Short { needed: 1 << 50 }));
    /// # Ok::<(), Refusal>(())
    /// ```
    pub fn density(&self, area: Rect, width: i32, height: i32) -> Result<Densities, Refusal> {
        let windows = area.windows(width, height).map_or(0, |windows| windows.len());
        let mut shares = Vec::new();
        // Without memory the list stays empty, and the server finds it too short.
        if shares.try_reserve_exact(windows).is_ok() {
            shares.resize(windows, 0.0);
        }
        let report = calls::density(&self.words, area, width, height, &mut shares).result()?;
        Ok(Densities { shares, lowest: report.lowest, highest: report.highest, covered: report.covered as u64 })
    }

    /// Draws a solid; its record. The solids that are there keep their records. Where one of them is in the way, the
    /// refusal tells what [`Plane::search`] gives for the rectangle.
    ///
    /// ```
    /// use ushanderi_host::{Plane, Rect, Refusal};
    ///
    /// let mut plane = Plane::with_room(1)?;
    /// let solid = Rect::new(0, 0, 10, 10);
    /// assert_eq!(plane.create(solid, 0), Err(Refusal::Label));
    /// let record = plane.create(solid, 1)?;
    /// assert_eq!(plane.tile(record).map(|tile| tile.rect), Some(solid));
    /// assert_eq!(plane.create(Rect::new(9, 3, 12, 4), 2), Err(Refusal::Occupied { by: record, cell: (9, 3) }));
    /// assert_eq!(plane.create(Rect::new(10, 3, 12, 4), 2), Err(Refusal::Full));
    /// # Ok::<(), Refusal>(())
    /// ```
    pub fn create(&mut self, rect: Rect, label: i32) -> Result<usize, Refusal> {
        let answer = calls::create(&mut self.words, rect.left, rect.bottom, rect.right, rect.top, label);
        answer.result().map(|record| record as usize)
    }

    /// Removes the solid that holds the cell; its label. The other solids keep their records.
    ///
    /// ```
    /// use ushanderi_host::{Plane, Rect, Refusal};
    ///
    /// let mut plane = Plane::with_room(10)?;
    /// plane.create(Rect::new(0, 0, 10, 10), 7)?;
    /// assert_eq!(plane.delete(9, 9)?, 7);
    /// assert_eq!(plane.delete(9, 9), Err(Refusal::Space));
    /// # Ok::<(), Refusal>(())
    /// ```
    pub fn delete(&mut self, x: i32, y: i32) -> Result<i32, Refusal> {
        calls::delete(&mut self.words, x, y).result()
    }

    /// The solids as a saved layout: 20 bytes each, highest top first, ties by smaller left.
    pub fn save(&self) -> Vec<u8> {
        let mut bytes = vec![0; self.room() * SAVED_BYTES];
        let count = calls::save(&self.words, &mut bytes).result().expect("a plane can always be saved");
        bytes.truncate(count as usize);
        bytes
    }

    /// Makes the plane that of a saved layout; the number of its solids. If a record is refused, the plane is empty.
    ///
    /// ```
    /// use ushanderi_host::{LoadRefusal, Plane, Rect, Refusal};
    ///
    /// let mut plane = Plane::with_room(10)?;
    /// plane.create(Rect::new(0, 0, 10, 10), 1)?;
    /// let bytes = plane.save();
    /// assert_eq!(bytes.len(), 20);
    ///
    /// let mut copy = Plane::with_room(10)?;
    /// assert_eq!(copy.load(&bytes), Ok(1));
    /// assert_eq!(copy.save(), bytes);
    /// assert_eq!(copy.load(&bytes[1..]), Err(LoadRefusal::Nothing(Refusal::File)));
    /// assert_eq!(copy.solids(), 1);
    /// # Ok::<(), Refusal>(())
    /// ```
    pub fn load(&mut self, bytes: &[u8]) -> Result<usize, LoadRefusal> {
        calls::load(&mut self.words, bytes).load_result()
    }
}
