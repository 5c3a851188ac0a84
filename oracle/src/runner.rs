//! Runs the cases of a stage on a few threads, counts them, shows progress, and shrinks the smallest difference found.

use std::collections::BTreeMap;
use std::sync::atomic::{AtomicUsize, Ordering};
use std::sync::Mutex;

use crate::random::Random;

/// One input on which both sides are run.
pub trait Case: Sized {
    /// Runs both sides; answers how many comparisons that was, or how they differ.
    fn compare(&self, random: &mut Random) -> Result<u64, String>;

    /// Smaller inputs that may show the same difference.
    fn smaller(&self) -> Vec<Self> {
        Vec::new()
    }

    fn show(&self) -> String;

    /// Differences are told apart by this: each group shows its own smallest input.
    fn group(&self) -> String {
        String::new()
    }
}

/// A list of cases by number.
pub trait Stage: Sync {
    type Case: Case;
    fn name(&self) -> &'static str;
    fn count(&self, factor: usize) -> usize;
    fn case(&self, index: usize, random: &mut Random) -> Self::Case;

    /// A line on what the cases have shown beside the comparison, if there is any, asked for once they are done.
    fn told(&self) -> Option<String> {
        None
    }

    /// What the whole of the cases must have shown, asked for once they are done: one text for each thing that is missing.
    fn missing(&self) -> Vec<String> {
        Vec::new()
    }
}

/// What a run is asked for.
pub struct Plan {
    pub seed: u64,
    pub factor: usize,
    pub threads: usize,
}

/// What a stage, or all of them together, came to.
#[derive(Default)]
pub struct Totals {
    pub compared: u64,
    pub differ: u64,
}

/// At most so many differing cases of a group are looked at in the search of the smallest.
const KEPT: usize = 200;

/// Steps after which shrinking stops.
const STEPS: usize = 400;

/// The cases of one stage while they are run.
struct Work<'a, S: Stage> {
    stage: &'a S,
    stream: u64,
    plan: &'a Plan,
    count: usize,
    next: AtomicUsize,
    compared: Mutex<u64>,
    different: Mutex<Vec<usize>>,
}

impl<S: Stage> Work<'_, S> {
    fn case(&self, index: usize) -> (S::Case, Random) {
        let mut random = Random::new(self.plan.seed, self.stream, index as u64);
        (self.stage.case(index, &mut random), random)
    }

    /// Takes case after case until there is none left.
    fn run(&self) {
        let (mut compared, mut different) = (0, Vec::new());
        loop {
            let index = self.next.fetch_add(1, Ordering::Relaxed);
            if index >= self.count {
                break;
            }
            if index > 0 && index * 4 / self.count != (index - 1) * 4 / self.count {
                eprintln!("{}: {} of {} cases begun", self.stage.name(), index, self.count);
            }
            let (case, mut random) = self.case(index);
            match case.compare(&mut random) {
                Ok(units) => compared += units,
                Err(_) => {
                    compared += 1;
                    different.push(index);
                }
            }
        }
        *self.compared.lock().expect("no thread has panicked") += compared;
        self.different.lock().expect("no thread has panicked").extend(different);
    }

    /// The differing cases by group.
    fn grouped(&self, different: &[usize]) -> BTreeMap<String, Vec<usize>> {
        let mut groups: BTreeMap<String, Vec<usize>> = BTreeMap::new();
        for &index in different {
            groups.entry(self.case(index).0.group()).or_default().push(index);
        }
        groups
    }

    /// The smallest input that can be found from some differing cases, and what differs there.
    fn smallest(&self, different: &[usize]) -> String {
        let shown = |index: &usize| self.case(*index).0.show().len();
        let Some(index) = different.iter().take(KEPT).min_by_key(|index| shown(index)) else {
            return String::new();
        };
        let (mut case, mut random) = self.case(*index);
        let mut how = case.compare(&mut random).err().unwrap_or_else(|| "differed only the first time".into());
        for _ in 0..STEPS {
            let next = case.smaller().into_iter().find_map(|c| c.compare(&mut random).err().map(|how| (c, how)));
            match next {
                Some(found) => (case, how) = found,
                None => break,
            }
        }
        format!("  case {index}, smallest found: {}\n  {how}", case.show())
    }
}

/// Runs a stage and prints its line.
pub fn run<S: Stage>(stage: &S, stream: u64, plan: &Plan) -> Totals {
    let count = stage.count(plan.factor);
    println!("{}: {count} cases", stage.name());
    let work = Work {
        stage,
        stream,
        plan,
        count,
        next: AtomicUsize::new(0),
        compared: Mutex::new(0),
        different: Mutex::new(Vec::new()),
    };
    std::thread::scope(|scope| {
        for _ in 0..plan.threads {
            scope.spawn(|| work.run());
        }
    });
    // Asked before a difference is made smaller, which runs further cases.
    if let Some(line) = stage.told() {
        println!("{}: {line}", stage.name());
    }
    let mut different = work.different.lock().expect("no thread has panicked").clone();
    different.sort_unstable();
    for (group, cases) in work.grouped(&different) {
        println!("{}", format!("  {} differ {group}", cases.len()).trim_end());
        println!("{}", work.smallest(&cases));
    }
    let missing = stage.missing();
    missing.iter().for_each(|what| println!("  {what}"));
    let compared = *work.compared.lock().expect("no thread has panicked");
    let totals = Totals { compared, differ: (different.len() + missing.len()) as u64 };
    print_line(stage.name(), &totals);
    totals
}

/// The line of a stage.
pub fn print_line(name: &str, totals: &Totals) {
    println!("{name}: {} compared, {} differ", totals.compared, totals.differ);
}
