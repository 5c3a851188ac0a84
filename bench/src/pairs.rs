//! One row of a table: the two sides' work on one frame, compared first and then timed in turn.

use std::hint::black_box;

use crate::beside::{choose, Archive, HAS_OLD};
use crate::frames::Frame;
use crate::lent::Lent;
use crate::timing::{alternate, by_turns, Times};

/// How many times as many rounds two archives get: both are quick, and the third decimal is asked for.
const OLD_TIMES: usize = 5;

/// What was timed, on which frame, and the times.
pub struct Row {
    pub what: String,
    pub frame: &'static str,
    pub sides: (usize, usize),
    pub times: Times,
}

/// A frame, the buffers lent for it, the rows that are wanted, and the rows so far.
pub struct Desk<'a> {
    pub frame: &'a Frame,
    lent: Lent,
    wanted: &'a str,
    rows: Vec<Row>,
}

impl<'a> Desk<'a> {
    /// Of the rows that it is asked for it makes those whose text has `wanted` in it.
    pub fn new(frame: &'a Frame, wanted: &'a str) -> Desk<'a> {
        Desk { frame, lent: Lent::new(frame.area()), wanted, rows: Vec::new() }
    }

    pub fn rows(self) -> Vec<Row> {
        self.rows
    }

    /// All rounds of its rows, which are of one kind, as one row, if there is any.
    pub fn joined(self) -> Option<Row> {
        self.rows.into_iter().reduce(|one, other| Row { times: one.times.and(other.times), ..one })
    }

    /// Compares the two outputs, before the rounds and once more after them, and adds the row. With a second archive the vendor is only
    /// compared with, and the two archives are timed.
    pub fn pair<V>(
        &mut self,
        what: &str,
        rounds: usize,
        vendor: impl Fn() -> V,
        ours: impl Fn(&mut Lent) -> u8,
        same: impl Fn(&V, &Lent) -> bool,
    ) -> Result<(), String> {
        if !what.contains(self.wanted) {
            return Ok(());
        }
        let place = format!("{what} on the {} frame, {:?}", self.frame.name, self.frame.sides());
        let lent = &mut self.lent;
        let expected = vendor();
        if HAS_OLD && !old_answers(&place, lent, &ours, |lent| same(&expected, lent)) {
            return Ok(());
        }
        lent.spoil();
        if ours(lent) != 0 {
            return Err(format!("{place}: ours refuses"));
        }
        if !same(&expected, lent) {
            return Err(format!("{place}: the outputs differ"));
        }
        let work = || ours(black_box(&mut *lent));
        let times = if HAS_OLD { by_turns(OLD_TIMES * rounds, work) } else { alternate(rounds, &vendor, work) };
        if HAS_OLD {
            // What the last round left may be the old archive's.
            ours(lent);
        }
        if !same(&expected, lent) {
            return Err(format!("{place}: the outputs differ"));
        }
        self.rows.push(Row { what: what.to_string(), frame: self.frame.name, sides: self.frame.sides(), times });
        Ok(())
    }
}

/// Whether the old archive accepts the call, so that there is something to time. What it makes may differ, since rules change; that is said.
fn old_answers(place: &str, lent: &mut Lent, ours: impl Fn(&mut Lent) -> u8, same: impl Fn(&Lent) -> bool) -> bool {
    lent.spoil();
    choose(Archive::Old);
    let accepted = ours(lent) == 0;
    choose(Archive::New);
    if !accepted {
        eprintln!("bench: {place}: the old archive refuses or does not have the call; no row");
    } else if !same(lent) {
        eprintln!("bench: {place}: the old archive's output is another");
    }
    accepted
}
