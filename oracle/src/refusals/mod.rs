//! Every refusal of every call: honest requests with each border number, each single damage, each pair of damages, and random heaps of
//! them. The number must be the one that document 01's table gives, and a refusal must leave everything lent as it was.

mod asked;
mod bench;
mod damages;

use std::sync::atomic::{AtomicU64, Ordering};

use crate::random::Random;
use crate::runner::{Case, Stage};
use crate::stages::RANDOM;

use asked::{Asked, Call, CALLS};
use bench::Bench;
use damages::DAMAGES;

pub struct Refusals;

/// How often each call has given each answer.
static GIVEN: [[AtomicU64; 256]; CALLS.len()] = [const { [const { AtomicU64::new(0) }; 256] }; CALLS.len()];

fn given(call: Call, answer: u8) -> &'static AtomicU64 {
    &GIVEN[call as usize][usize::from(answer)]
}

/// Each call is first asked with every border number there is.
const BORDERS: usize = 256;

/// A request and the damages that were done to it.
pub struct Damaged {
    asked: Asked,
    done: Vec<&'static str>,
}

impl Stage for Refusals {
    type Case = Damaged;

    fn name(&self) -> &'static str {
        "refusals"
    }

    fn count(&self, factor: usize) -> usize {
        CALLS.len() * (BORDERS + DAMAGES.len() + DAMAGES.len() * DAMAGES.len()) + RANDOM * factor
    }

    fn case(&self, index: usize, random: &mut Random) -> Damaged {
        let mut damaged = Damaged { asked: Asked::honest(CALLS[index % CALLS.len()], random), done: Vec::new() };
        let number = index / CALLS.len();
        if number < BORDERS {
            damaged.asked.border = number as u8;
            return damaged;
        }
        for number in chosen(number - BORDERS, random) {
            let (name, damage) = DAMAGES[number];
            damage(&mut damaged.asked, random);
            damaged.done.push(name);
        }
        damaged
    }

    /// Every call must have accepted something and given each refusal that the header lists for it, and no other.
    fn missing(&self) -> Vec<String> {
        let mut all = Vec::new();
        for call in CALLS {
            for answer in 0..=255 {
                let listed = answer == 0 || call.refusals().contains(&answer);
                let times = given(call, answer).load(Ordering::Relaxed);
                if listed != (times > 0) {
                    all.push(format!("{call:?} answered {answer} {times} times; the header lists it: {listed}"));
                }
            }
        }
        all
    }
}

/// The damages of case `number` of a call: one alone, then two, then up to four at random.
fn chosen(number: usize, random: &mut Random) -> Vec<usize> {
    let d = DAMAGES.len();
    if number < d {
        vec![number]
    } else if number < d + d * d {
        vec![(number - d) / d, (number - d) % d]
    } else {
        (0..random.below(5)).map(|_| random.below(d)).collect()
    }
}

impl Case for Damaged {
    fn compare(&self, random: &mut Random) -> Result<u64, String> {
        self.asked.vendor_agrees()?;
        let mut bench = Bench::new(&self.asked, random);
        let answer = bench.call(&self.asked);
        given(self.asked.call, answer).fetch_add(1, Ordering::Relaxed);
        let expected = self.asked.table().answer();
        if answer != expected {
            return Err(format!("ours answers {answer}, 01 gives {expected}"));
        }
        if answer == 0 {
            bench.only_outputs_changed(&self.asked)?;
        } else {
            bench.unchanged()?;
        }
        Ok(1)
    }

    fn show(&self) -> String {
        format!("damages {:?}, {:?}", self.done, self.asked)
    }

    fn group(&self) -> String {
        format!("in {:?}", self.asked.call)
    }
}
