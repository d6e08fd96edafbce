//! How much of a window is metal, and what a report says of all windows of an area.

/// How much of one window is metal.
#[derive(Clone, Copy, Debug, PartialEq)]
pub enum Density {
    /// No cell of it.
    Bare,
    /// Every cell of it.
    Filled,
    /// This part of its cells, which is more than none and less than all.
    Share(f64),
}

impl Density {
    /// Of a window with so many cells, so many of them covered. A float holds both exactly: a plane has 2^50 cells.
    pub fn of(covered: u64, cells: u64) -> Density {
        match covered {
            0 => Density::Bare,
            _ if covered == cells => Density::Filled,
            _ => Density::Share(covered as f64 / cells as f64),
        }
    }

    /// What a share in a report says. No part of a window is rounded to 0.0 or to 1.0.
    pub fn told_by(share: f64) -> Density {
        match share {
            0.0 => Density::Bare,
            1.0 => Density::Filled,
            _ => Density::Share(share),
        }
    }

    /// As a report writes it: 0.0 for a bare window, 1.0 for a filled one.
    pub fn share(self) -> f64 {
        match self {
            Density::Bare => 0.0,
            Density::Filled => 1.0,
            Density::Share(share) => share,
        }
    }
}

/// How much of each window of an area is metal.
#[derive(Clone, Debug, PartialEq)]
pub struct Densities {
    /// The windows' shares, row by row from the top and each row from left to right: 0.0 where a window is bare, 1.0
    /// where it is filled.
    pub shares: Vec<f64>,
    /// The share of the window with the fewest covered cells.
    pub lowest: f64,
    /// The share of the window with the most.
    pub highest: f64,
    /// The covered cells of the area.
    pub covered: u64,
}

impl Densities {
    /// The windows one by one, in the order of their shares.
    pub fn windows(&self) -> impl Iterator<Item = Density> + '_ {
        self.shares.iter().map(|&share| Density::told_by(share))
    }
}

/// The shares as bits, which tell more than a comparison of floats does.
pub fn bits(shares: &[f64]) -> Vec<u64> {
    shares.iter().map(|share| share.to_bits()).collect()
}
