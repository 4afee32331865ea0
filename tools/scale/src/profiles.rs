//! What random functions are made of: types of names, and codes.

use crate::function::{BOOL, CHAR, FLOAT, INT, PHI};

/// Types that a function's names are drawn from, and the codes it prefers.
pub struct Profile {
    /// How often it is taken, of those that may have a given size.
    pub weight: usize,
    pub types: &'static [u8],
    pub codes: &'static [u8],
}

pub const PROFILES: [Profile; 8] = [
    Profile {
        weight: 5,
        types: &[INT, INT, BOOL, INT, INT],
        codes: &[0, 0, 0, 0, 1, 1, 1, 2, 3, 3, 3, 3, 4, 4, 5, 6, 7, 8, 9, 13, 68],
    },
    Profile {
        weight: 3,
        types: &[BOOL, BOOL, INT, BOOL, INT],
        codes: &[0, 0, 0, 5, 6, 10, 11, 11, 12, 12, 13, 68],
    },
    Profile {
        weight: 2,
        types: &[FLOAT, BOOL, FLOAT, CHAR, INT, CHAR],
        codes: &[0, 0, 20, 21, 22, 23, 24, 25, 26, 27, 28, 29, 30, 31, 32, 33, 34, 35, 36, 13, 68],
    },
    Profile {
        weight: 3,
        types: &[0x10, INT, 0x10, INT, 0x20, 0x20],
        codes: &[0, 0, 0, 13, 14, 14, 14, 37, 38, 38, 70, 71],
    },
    Profile {
        weight: 1,
        types: &[INT, 0xF3, 0xE3, 0xF3, 0xE3, INT],
        codes: &[0, 0, 13, 14, 14, 37, 38, 38, 70, 71, 20],
    },
    Profile {
        weight: 1,
        types: &[0x12, INT, FLOAT, FLOAT, 0x11, BOOL],
        codes: &[0, 0, 13, 14, 37, 38, 38, 70, 71, 21, 23],
    },
    Profile {
        weight: 2,
        types: &[INT, FLOAT, BOOL, FLOAT, INT],
        codes: &[0, 0, 0, 0, 1, 13, 20, 67, 68, 69],
    },
    Profile { weight: 3, types: &MOST, codes: EVERY.split_at(EVERY.len() - 1).0 },
];

/// Comparisons of few ints, so that gt and lt, and ge and le, meet: one random function in ten, and none of a given size.
pub const COMPARISONS: Profile = Profile {
    weight: 0,
    types: &[INT, BOOL, INT, BOOL, BOOL],
    codes: &[0, 1, 6, 6, 7, 7, 8, 8, 9, 9, 13, 68],
};

/// Divisions of few ints, with ids and sums of them: one random function in ten, and none of a given size.
pub const DIVISIONS: Profile = Profile {
    weight: 0,
    types: &[INT, INT, INT, BOOL, INT],
    codes: &[0, 0, 1, 2, 3, 4, 4, 4, 4, 4, 13, 13, 68],
};

/// Phis of few names, with ids and equal constants, so that their arguments have other homes: one random function in ten,
/// and none of a given size.
pub const PHIS: Profile = Profile {
    weight: 0,
    types: &[INT, INT, FLOAT, INT, 0x11],
    codes: &[0, 0, 0, 13, 13, 13, 13, PHI, PHI, PHI, PHI, PHI, PHI, 1, 68],
};

/// All codes, phi too: one random function in ten, and none of a given size.
pub const ALL: Profile = Profile { weight: 0, types: &MOST, codes: &EVERY };

const MOST: [u8; 6] = [INT, BOOL, INT, FLOAT, CHAR, 0x10];

/// Every code that may stand before the last place, phi behind the others.
const EVERY: [u8; 40] = [
    0, 1, 2, 3, 4, 5, 6, 7, 8, 9, 10, 11, 12, 13, 14, 20, 21, 22, 23, 24, 25, 26, 27, 28, 29, 30,
    31, 32, 33, 34, 35, 36, 37, 38, 67, 68, 69, 70, 71, PHI,
];
