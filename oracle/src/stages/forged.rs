//! Walks that no start has left: random marks, stacks and pending counts. Slice and map must give what document 01's table and walk give,
//! step by step, and change nothing where they refuse.

use crate::lent::Lent;
use crate::model::{self, Table};
use crate::ours::{self, Walk};
use crate::pictures::list;
use crate::random::Random;
use crate::runner::{Case, Stage};

use super::RANDOM;

pub struct Forged;

#[derive(Clone)]
pub struct State {
    walk: Walk,
    marks: Vec<u8>,
    stack: Vec<u32>,
    budget: usize,
}

impl Stage for Forged {
    type Case = State;

    fn name(&self) -> &'static str {
        "forged walks"
    }

    fn count(&self, factor: usize) -> usize {
        3 * RANDOM * factor
    }

    fn case(&self, index: usize, random: &mut Random) -> State {
        let most = if index.is_multiple_of(100) { 60 } else { 6 };
        let (width, height) = (random.below(most), random.below(most));
        let n = width * height;
        let weak_in = 1 + random.below(4);
        let marks: Vec<u8> = (0..n + random.below(4)).map(|_| mark(weak_in, random)).collect();
        let wild = random.once_in(12);
        let stack = (0..n + random.below(4)).map(|_| index_for(n, wild, random)).collect();
        let weak = marks[..n].iter().filter(|&&m| m == 1).count();
        let pending = match random.below(8) {
            0 => random.below(n + 2),
            1 => n - weak,
            2 => n - weak + 1,
            3 => random.pick(&[n, n + 1, usize::MAX, usize::MAX - weak, 1 << 32]),
            _ => random.below(n - weak + 1),
        };
        let budget = if random.once_in(10) { random.pick(&[0, usize::MAX]) } else { 1 + random.below(2 * n + 2) };
        State { walk: Walk { width, height, pending }, marks, stack, budget }
    }
}

fn mark(weak_in: usize, random: &mut Random) -> u8 {
    if random.once_in(300) {
        return random.pick(&[4, 5, 128, 255]);
    }
    if random.once_in(weak_in) { 1 } else { random.pick(&[0, 2, 3]) }
}

fn index_for(n: usize, wild: bool, random: &mut Random) -> u32 {
    if wild && random.once_in(6) {
        return random.pick(&[n as u32, n as u32 + 1, u32::MAX, 1 << 31]);
    }
    random.below(n.max(1)) as u32
}

impl Case for State {
    fn compare(&self, random: &mut Random) -> Result<u64, String> {
        self.compare_slice(random)?;
        self.compare_map(random)?;
        Ok(2)
    }

    fn show(&self) -> String {
        format!("{:?}, budget {}, marks {}, stack {}", self.walk, self.budget, list(&self.marks), list(&self.stack))
    }
}

impl State {
    fn area(&self) -> usize {
        self.walk.width * self.walk.height
    }

    fn table(&self) -> Table {
        let Walk { width, height, pending } = self.walk;
        let room = vec![self.marks.len(), self.stack.len()];
        let unusable = model::Walk::unusable(width, height, pending, &self.marks, &self.stack);
        Table { sides: Some((width, height)), room, unusable: Some(unusable), ..Table::default() }
    }

    fn rule(&self) -> model::Walk {
        let n = self.area();
        let Walk { width, height, pending } = self.walk;
        model::Walk { width, height, pending, marks: self.marks[..n].to_vec(), stack: self.stack[..n].to_vec() }
    }

    fn compare_slice(&self, random: &mut Random) -> Result<(), String> {
        let mut marks = Lent::holding(&self.marks, random);
        let mut stack = Lent::holding(&self.stack, random);
        let (mut walk, poison) = (self.walk, random.next() as usize);
        let mut takes = poison;
        let answer = ours::slice(&mut walk, self.budget, marks.lend_mut(), stack.lend_mut(), &mut takes);
        let expected = Table { budget: Some(self.budget), ..self.table() }.answer();
        if answer != expected {
            return Err(format!("slice answers {answer}, 01 gives {expected}"));
        }
        if answer != 0 {
            marks.unchanged("marks")?;
            stack.unchanged("stack")?;
            return if (walk, takes) == (self.walk, poison) { Ok(()) } else { Err("a refused slice changed a number".into()) };
        }
        let (n, mut rule) = (self.area(), self.rule());
        let by_rule = rule.slice(self.budget);
        marks.same_outside(n, "marks")?;
        stack.same_outside(n, "stack")?;
        let ours = model::Walk {
            width: walk.width,
            height: walk.height,
            pending: walk.pending,
            marks: marks.first(n).to_vec(),
            stack: stack.first(n).to_vec(),
        };
        if ours == rule && takes == by_rule { Ok(()) } else { Err(format!("slice: {takes} takes, {ours:?}; 01 {by_rule} takes, {rule:?}")) }
    }

    fn compare_map(&self, random: &mut Random) -> Result<(), String> {
        let n = self.area();
        let marks = Lent::holding(&self.marks, random);
        let stack = Lent::holding(&self.stack, random);
        let mut out = Lent::<u8>::roomy(n, random);
        // Half of the maps are asked for as if nothing were pending.
        let walk = if random.once_in(2) { Walk { pending: 0, ..self.walk } } else { self.walk };
        let state = State { walk, ..self.clone() };
        let answer = ours::map(&walk, marks.lend(), stack.lend(), out.lend_mut());
        let expected = Table { pending: Some(walk.pending), ..state.table() }.answer();
        if answer != expected {
            return Err(format!("map with {} pending answers {answer}, 01 gives {expected}", walk.pending));
        }
        marks.unchanged("marks")?;
        stack.unchanged("stack")?;
        if answer != 0 {
            return out.unchanged("map");
        }
        out.same_outside(n, "map")?;
        if out.first(n) == state.rule().map() { Ok(()) } else { Err(format!("map {}", list(out.first(n)))) }
    }
}
