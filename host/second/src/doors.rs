//! Document 02, A13: which doors open within an allowance of rounds, by its sentences one after another. The answer and
//! every word of every lent buffer are held against the library's.

use crate::calls::{counted, Work, WORK_WORDS};
use crate::fault::Fault;
use crate::generate::{damage, grid, random_words, sheet, side, work};
use crate::grid::Grid;
use crate::rng::Rng;
use std::collections::BTreeSet;

/// "an allowance of 0 to 1,000 rounds"
const MAX_ALLOWANCE: u32 = 1000;

/// A wrong reading of the rule, planted to see that the comparison notices it.
#[derive(Clone, Copy, Debug, PartialEq, Eq)]
pub enum Slip {
    None,
    RoundTooMany,
    RoundTooFew,
    LatestRound,
    RoundsFromOne,
    ZeroIsAbsent,
    SheetsExchanged,
    AllowanceBeforeHand,
    ShapesBeforeAllowance,
    RoomBeforeWork,
    AllowanceOneMore,
    AnyShapeOfHand,
    SpareWordsLost,
    WorkKept,
}

/// One call: the allowance, the three inputs, the answer's buffer and the work buffer.
#[derive(Clone, Debug)]
pub struct Doors {
    pub allowance: u32,
    pub locks: Vec<u32>,
    pub cabinets: Vec<u32>,
    pub hand: Vec<u32>,
    pub out: Vec<u32>,
    pub work: Work,
}

/// The answer, and the two written buffers after the call.
#[derive(PartialEq, Eq, Debug)]
pub struct After {
    answer: u64,
    out: Vec<u32>,
    work: Vec<u32>,
}

/// Keys or doors that a set of doors or keys leads to: there is an entry, whatever its value.
fn reached(sheet: &Grid, from: &BTreeSet<u32>, slip: Slip) -> BTreeSet<u32> {
    let counts = |value: i32| value != 0 || slip != Slip::ZeroIsAbsent;
    sheet.cells.iter().filter(|((i, _), value)| from.contains(i) && counts(**value)).map(|((_, j), _)| *j).collect()
}

/// "Keys after round 0 are those in hand. Doors after round n are what the keys after round n open; keys after round
/// n+1 are the keys after round n and those behind the doors after round n." The doors, each with its first round.
fn opened(locks: &Grid, cabinets: &Grid, hand: &Grid, allowance: u32, slip: Slip) -> Grid {
    let mut strip = Grid::empty(1, locks.cols);
    let mut keys = reached(hand, &BTreeSet::from([0]), slip);
    let last = match slip {
        Slip::RoundTooMany => allowance + 1,
        Slip::RoundTooFew => allowance.saturating_sub(1),
        _ => allowance,
    };
    for round in 0..=last {
        let doors = reached(locks, &keys, slip);
        for door in &doors {
            let value = round as i32 + i32::from(slip == Slip::RoundsFromOne);
            let first = strip.cells.entry((0, *door)).or_insert(value);
            if slip == Slip::LatestRound {
                *first = value;
            }
        }
        keys.extend(reached(cabinets, &doors, slip));
    }
    strip
}

impl Doors {
    /// The refusal that applies: 3, 4, 5, then 7, 8, 9, 11; or the answer's strip.
    fn outcome(&self, slip: Slip) -> Result<Grid, u32> {
        let read = |words: &[u32], code: u32| Grid::read(words, Fault::None).ok_or(code);
        let allowed = MAX_ALLOWANCE + u32::from(slip == Slip::AllowanceOneMore);
        let allowance = if self.allowance <= allowed { Ok(()) } else { Err(7u32) };
        let locks = read(&self.locks, 3)?;
        let cabinets = read(&self.cabinets, 4)?;
        if slip == Slip::AllowanceBeforeHand {
            allowance?;
        }
        let hand = read(&self.hand, 5)?;
        let turned = (cabinets.rows, cabinets.cols) == (locks.cols, locks.rows);
        let strip = hand.shape() == (1, locks.rows) || (slip == Slip::AnyShapeOfHand && hand.cols == locks.rows);
        let shapes = if turned && strip { Ok(()) } else { Err(8u32) };
        if slip == Slip::ShapesBeforeAllowance {
            shapes?;
        }
        allowance?;
        shapes?;
        let short = if self.work.length < WORK_WORDS { Err(9u32) } else { Ok(()) };
        if slip != Slip::RoomBeforeWork {
            short?;
        }
        let doors = match slip {
            Slip::SheetsExchanged => opened(&cabinets, &locks, &hand, self.allowance, slip),
            _ => opened(&locks, &cabinets, &hand, self.allowance, slip),
        };
        if self.out.len() < doors.size() {
            return Err(11);
        }
        short?;
        Ok(doors)
    }

    /// The answer and the buffers by the rule.
    pub fn expected(&self, slip: Slip) -> After {
        let work = if slip == Slip::WorkKept { self.work.words() } else { vec![0; self.work.length] };
        match self.outcome(slip) {
            Err(code) => After { answer: counted(code, 0), out: self.out.clone(), work },
            Ok(doors) => {
                let mut out = doors.words();
                if slip != Slip::SpareWordsLost {
                    out.extend(&self.out[out.len()..]);
                }
                out.resize(self.out.len(), 0);
                After { answer: counted(0, doors.cells.len()), out, work }
            }
        }
    }

    /// The answer and the buffers by the library.
    pub fn seen(&self) -> After {
        let (mut out, mut work) = (self.out.clone(), self.work.words());
        let Doors { allowance, locks, cabinets, hand, .. } = self;
        let answer = ostrubel::calls::open_doors(*allowance, locks, cabinets, hand, &mut out, &mut work);
        After { answer, out, work }
    }

    /// What goes wrong is the error.
    pub fn judge(&self) -> Result<u64, String> {
        let (expected, seen) = (self.expected(Slip::None), self.seen());
        if expected == seen {
            return Ok(seen.answer);
        }
        let cleared = expected.work == seen.work;
        Err(format!(
            "{self:?}: expected {} and {:?}, seen {} and {:?}; the work buffer as expected: {cleared}",
            expected.answer, expected.out, seen.answer, seen.out
        ))
    }
}

/// A corridor: key k opens door k, and key k + 1 is behind it; so a round for each door.
fn corridor(length: u32) -> [Grid; 3] {
    let mut grids = [Grid::empty(length, length), Grid::empty(length, length), Grid::empty(1, length)];
    grids[0].cells.extend((0..length).map(|k| ((k, k), k as i32 % 3)));
    grids[1].cells.extend((1..length).map(|k| ((k - 1, k), 0)));
    grids[2].cells.insert((0, 0), 0);
    grids
}

/// A call whose inputs fit, mostly; one in three is spoilt.
pub fn doors(rng: &mut Rng) -> Doors {
    let (keys, doors) = (side(rng), side(rng));
    let [locks, cabinets, hand] = match rng.below(12) {
        0 => corridor(keys),
        _ => [grid(rng, keys, doors), grid(rng, doors, keys), grid(rng, 1, keys)],
    };
    let allowance = match rng.below(10) {
        0 => MAX_ALLOWANCE,
        1 => rng.between(0, MAX_ALLOWANCE),
        _ => rng.between(0, 6),
    };
    let size = opened(&locks, &cabinets, &hand, allowance, Slip::None).size();
    let room = match rng.below(8) {
        0 => size.saturating_sub(1 + rng.below(3)),
        1 => size,
        _ => size + rng.below(9),
    };
    let out = random_words(rng, room);
    let [locks, cabinets, hand] = [&locks, &cabinets, &hand].map(|grid| sheet(rng, grid));
    let mut call = Doors { allowance, locks, cabinets, hand, out, work: work(rng) };
    while rng.once_in(3) {
        spoil(rng, &mut call);
    }
    call
}

fn spoil(rng: &mut Rng, call: &mut Doors) {
    match rng.below(8) {
        0 => damage(rng, &mut call.locks),
        1 => damage(rng, &mut call.cabinets),
        2 => damage(rng, &mut call.hand),
        3 => call.allowance = rng.pick(&[MAX_ALLOWANCE + 1, MAX_ALLOWANCE + 1, 1 << 31, u32::MAX]),
        4 => call.work.length = rng.pick(&[WORK_WORDS - 1, WORK_WORDS - 1, 0, 100]),
        5 => {
            let length = rng.below(12);
            call.out = random_words(rng, length);
        }
        6 => {
            let (rows, cols) = (side(rng), side(rng));
            let other = grid(rng, rows, cols).words();
            match rng.below(3) {
                0 => call.locks = other,
                1 => call.cabinets = other,
                _ => call.hand = other,
            }
        }
        _ => {
            // More rows than a strip has, with as many columns.
            if let Some(hand) = Grid::read(&call.hand, Fault::None) {
                call.hand = Grid { rows: (hand.rows + 1).min(1000), ..hand }.words();
            }
        }
    }
}

#[cfg(test)]
mod tests {
    use super::*;

    const SLIPS: [Slip; 13] = [
        Slip::RoundTooMany,
        Slip::RoundTooFew,
        Slip::LatestRound,
        Slip::RoundsFromOne,
        Slip::ZeroIsAbsent,
        Slip::SheetsExchanged,
        Slip::AllowanceBeforeHand,
        Slip::ShapesBeforeAllowance,
        Slip::RoomBeforeWork,
        Slip::AllowanceOneMore,
        Slip::AnyShapeOfHand,
        Slip::SpareWordsLost,
        Slip::WorkKept,
    ];

    #[test]
    fn each_slip_is_noticed() {
        for slip in SLIPS {
            let mut calls = (0..100_000).map(|number| doors(&mut Rng::of_case(1, 4, number)));
            assert!(calls.any(|call| call.expected(slip) != call.seen()), "{slip:?}");
        }
    }

    /// Two keys, three doors: key 0 is in hand and opens door 1, behind which is key 1 for the doors 0 and 1.
    #[test]
    fn a_key_behind_a_door() {
        let cells = |rows, cols, at: &[(u32, u32)]| Grid {
            cells: at.iter().map(|at| (*at, 0)).collect(),
            ..Grid::empty(rows, cols)
        };
        let (locks, cabinets) = (cells(2, 3, &[(0, 1), (1, 0), (1, 1)]), cells(3, 2, &[(1, 1)]));
        let hand = cells(1, 2, &[(0, 0)]);
        let rounds = |allowance| opened(&locks, &cabinets, &hand, allowance, Slip::None).cells;
        assert_eq!(rounds(0), [((0, 1), 0)].into());
        assert_eq!(rounds(1), [((0, 0), 1), ((0, 1), 0)].into());
        assert_eq!(rounds(1000), rounds(1));
    }
}
