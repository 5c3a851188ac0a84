//! Buffers as a hostile caller lends them: poisoned, between two guards, and with a copy of what they held so that every change shows.

use std::hint::black_box;

use crate::random::Random;

/// Entries before and after a lent part that no call may touch.
const GUARD: usize = 9;

/// What can be lent: entries with a random value of any bits, and a way to compare bits.
pub trait Entry: Copy {
    fn poison(bits: u32) -> Self;
    fn bits(self) -> u32;
}

impl Entry for u8 {
    fn poison(bits: u32) -> u8 {
        bits as u8
    }
    fn bits(self) -> u32 {
        u32::from(self)
    }
}

impl Entry for i16 {
    fn poison(bits: u32) -> i16 {
        bits as i16
    }
    fn bits(self) -> u32 {
        u32::from(self as u16)
    }
}

impl Entry for u32 {
    fn poison(bits: u32) -> u32 {
        bits
    }
    fn bits(self) -> u32 {
        self
    }
}

impl Entry for f32 {
    fn poison(bits: u32) -> f32 {
        // One in four is a NaN of some pattern or an infinity.
        f32::from_bits(if bits & 3 == 0 { bits | 0x7F80_0000 } else { bits })
    }
    fn bits(self) -> u32 {
        self.to_bits()
    }
}

pub struct Lent<T> {
    all: Vec<T>,
    before: Vec<T>,
    length: usize,
}

impl<T: Entry> Lent<T> {
    /// A poisoned buffer of exactly `length` entries.
    pub fn poisoned(length: usize, random: &mut Random) -> Lent<T> {
        let mut all = Vec::with_capacity(length + 2 * GUARD + 1);
        while all.len() < length + 2 * GUARD {
            let bits = random.next();
            all.push(T::poison(bits as u32));
            all.push(T::poison((bits >> 32) as u32));
        }
        all.truncate(length + 2 * GUARD);
        Lent { before: all.clone(), all, length }
    }

    /// A poisoned buffer for `needed` entries, with a few more at its end.
    pub fn roomy(needed: usize, random: &mut Random) -> Lent<T> {
        let more = random.below(6);
        Lent::poisoned(needed + more, random)
    }

    /// A buffer that holds these values, between poisoned guards.
    pub fn holding(values: &[T], random: &mut Random) -> Lent<T> {
        let mut lent = Lent::guards(values.len(), random);
        lent.all[GUARD..GUARD + values.len()].copy_from_slice(values);
        lent.before[GUARD..GUARD + values.len()].copy_from_slice(values);
        lent
    }

    fn guards(length: usize, random: &mut Random) -> Lent<T> {
        let mut all = vec![T::poison(0); length + 2 * GUARD];
        for place in 0..GUARD {
            all[place] = T::poison(random.next() as u32);
            all[GUARD + length + place] = T::poison(random.next() as u32);
        }
        Lent { before: all.clone(), all, length }
    }

    pub fn lend(&self) -> &[T] {
        &self.all[GUARD..GUARD + self.length]
    }

    pub fn lend_mut(&mut self) -> &mut [T] {
        &mut self.all[GUARD..GUARD + self.length]
    }

    pub fn len(&self) -> usize {
        self.length
    }

    /// What it holds in its first `n` entries.
    pub fn first(&self, n: usize) -> &[T] {
        &self.lend()[..n]
    }

    /// Nothing has changed, not even a guard.
    pub fn unchanged(&self, name: &str) -> Result<(), String> {
        self.same_outside(0, name)
    }

    /// Nothing has changed but the first `n` entries.
    pub fn same_outside(&self, n: usize, name: &str) -> Result<(), String> {
        let all = black_box(&self.all);
        let changed = |i: &usize| all[*i].bits() != self.before[*i].bits();
        match (0..GUARD).chain(GUARD + n..all.len()).find(changed) {
            None => Ok(()),
            Some(i) => Err(format!(
                "{name}: entry {} of {} changed from bits {:#x} to {:#x}",
                i as i64 - GUARD as i64,
                self.length,
                self.before[i].bits(),
                all[i].bits()
            )),
        }
    }

    /// The first `n` entries are all zero bits and nothing else has changed.
    pub fn zeroed(&self, n: usize, name: &str) -> Result<(), String> {
        self.same_outside(n, name)?;
        match self.first(n).iter().position(|v| v.bits() != 0) {
            None => Ok(()),
            Some(i) => Err(format!("{name}: entry {i} is left with bits {:#x}, not 0", self.first(n)[i].bits())),
        }
    }
}
