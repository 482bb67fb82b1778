//! Runs one comparison after another: on all its inputs, on a written case, or on what a fuzzer chose.

mod progress;
mod shrink;

use crate::case::Case;
use crate::difference::{Difference, Saved};
use crate::random::Random;
use crate::text::Text;
use crate::value::Value;
use progress::Progress;
use shrink::shrink;
use std::mem;
use std::time::Duration;

/// Nothing where the run goes on.
pub type Compared = Result<(), Ended>;

/// Why a run ends.
#[derive(Debug, PartialEq)]
pub enum Ended {
    /// The library and the original differ.
    Difference(Difference),
    /// The written case is none of its comparison, as this sentence says.
    Fault(String),
}

/// What the comparisons are run for.
pub enum Task {
    /// Each comparison on its inputs.
    Run(Amount),
    /// To learn how many random inputs each comparison has of its own.
    Survey,
    /// One comparison on the case that is written.
    Replay(Saved),
    /// One comparison, on the input that the bytes make: it has this number among those of random
    /// inputs that are not large.
    Chosen { turn: usize, bytes: Vec<u8> },
}

/// A comparison that has fewer random inputs of its own has few because they are large.
pub const FEW: u64 = 20_000;

/// How many random inputs a comparison takes.
#[derive(Clone, Copy)]
pub enum Amount {
    /// As many as it has of its own.
    Own,
    /// So many; one whose inputs are large takes its share of them.
    Each(u64),
    /// `part` for every `whole` of its own, rounded up.
    Share { part: u64, whole: u64 },
}

impl Amount {
    fn of(self, own: u64) -> u64 {
        match self {
            Self::Own => own,
            Self::Each(cases) if own < FEW => (cases * own / 1_000_000).max(own),
            Self::Each(cases) => cases,
            Self::Share { part, whole } => {
                (u128::from(own) * u128::from(part)).div_ceil(u128::from(whole)) as u64
            }
        }
    }
}

/// Takes each comparison in turn, and does with it what the task says.
pub struct Driver {
    pub task: Task,
    seed: u64,
    /// How long a difference is made smaller.
    shrinking: Duration,
    tally: Vec<(String, u64)>,
}

impl Driver {
    pub fn new(task: Task, seed: u64, shrinking: Duration) -> Self {
        Self {
            task,
            seed,
            shrinking,
            tally: Vec::new(),
        }
    }

    /// The comparisons that passed, and the inputs that each took.
    pub fn tally(&self) -> &[(String, u64)] {
        &self.tally
    }

    /// Holds `library` to `original` on random inputs: `count`, or what the command line asks for.
    pub fn compare<I: Case, O: Value>(
        &mut self,
        name: &str,
        count: u64,
        mut input: impl FnMut(&mut Random) -> I,
        library: impl FnMut(&I) -> O,
        original: impl FnMut(&I) -> O,
    ) -> Compared {
        let (count, mut random) = match &mut self.task {
            Task::Run(amount) => {
                let seed = self.seed + self.tally.len() as u64;
                (amount.of(count), Random::new(seed))
            }
            Task::Survey => {
                self.tally.push((name.into(), count));
                return Ok(());
            }
            Task::Replay(_) => return self.replay(name, library, original),
            Task::Chosen { .. } if count < FEW => return Ok(()),
            Task::Chosen { turn, bytes } => {
                let now = *turn == 0;
                *turn = turn.wrapping_sub(1);
                if !now {
                    return Ok(());
                }
                (1, Random::chosen(mem::take(bytes)))
            }
        };
        let inputs = (0..count).map(|_| input(&mut random));
        self.hold(name, inputs, library, original)
    }

    /// Holds `library` to `original` on each of these inputs.
    pub fn compare_each<I: Case, O: Value>(
        &mut self,
        name: &str,
        inputs: impl IntoIterator<Item = I>,
        library: impl FnMut(&I) -> O,
        original: impl FnMut(&I) -> O,
    ) -> Compared {
        match self.task {
            Task::Run(_) => self.hold(name, inputs, library, original),
            Task::Replay(_) => self.replay(name, library, original),
            Task::Survey => {
                self.tally.push((name.into(), 0));
                Ok(())
            }
            Task::Chosen { .. } => Ok(()),
        }
    }

    /// Runs the written case where it is of this comparison.
    fn replay<I: Case, O: Value>(
        &mut self,
        name: &str,
        library: impl FnMut(&I) -> O,
        original: impl FnMut(&I) -> O,
    ) -> Compared {
        let Task::Replay(saved) = &self.task else {
            return Ok(());
        };
        if saved.name != name {
            return Ok(());
        }
        let case = saved.case().map_err(Ended::Fault)?;
        self.hold(name, [case], library, original)
    }

    fn hold<I: Case, O: Value>(
        &mut self,
        name: &str,
        inputs: impl IntoIterator<Item = I>,
        mut library: impl FnMut(&I) -> O,
        mut original: impl FnMut(&I) -> O,
    ) -> Compared {
        let mut progress = Progress::new(name);
        for given in inputs {
            if !library(&given).same(&original(&given)) {
                progress.end();
                let differs = |input: &I| !library(input).same(&original(input));
                let least = shrink(given, self.shrinking, differs);
                let mut case = Text::default();
                least.write(&mut case);
                return Err(Ended::Difference(Difference {
                    name: name.into(),
                    case: case.into_string(),
                    library: library(&least).show(),
                    original: original(&least).show(),
                }));
            }
            progress.step();
        }
        progress.end();
        let (count, rate) = (progress.count(), progress.rate());
        println!("  {name}: {count} inputs, no difference ({rate:.0} a second)");
        self.tally.push((name.into(), count));
        Ok(())
    }
}

#[cfg(test)]
mod tests {
    use super::*;
    use crate::inputs::any;

    fn driver(task: Task) -> Driver {
        Driver::new(task, 1, Duration::from_secs(20))
    }

    /// What the driver says of a `library` that stands in for x.floor().
    fn floor(task: Task, library: impl Fn(f64) -> f64) -> Compared {
        let original = |x: &f64| x.floor();
        driver(task).compare("floor", 100_000, any, |&x| library(x), original)
    }

    fn difference(library: impl Fn(f64) -> f64) -> Difference {
        match floor(Task::Run(Amount::Own), library) {
            Err(Ended::Difference(difference)) => difference,
            other => panic!("{other:?} where a difference should be"),
        }
    }

    #[test]
    fn the_same_function_passes() {
        assert_eq!(floor(Task::Run(Amount::Own), f64::floor), Ok(()));
    }

    #[test]
    fn a_floor_toward_zero_is_found_and_made_small() {
        let difference = difference(f64::trunc);
        assert_eq!(difference.name, "floor");
        assert_eq!(difference.case, "BFE0000000000000(-0.5)");
    }

    #[test]
    fn a_lost_sign_of_zero_is_found_and_made_small() {
        let difference = difference(|x| x.floor() + 0.0);
        assert_eq!(difference.case, "8000000000000000(-0.0)");
    }

    #[test]
    fn a_bad_case_is_told_in_a_sentence() {
        let told = |case: &str| {
            let saved = Saved::read(&format!("comparison floor\n{case}")).expect("it has a name");
            match floor(Task::Replay(saved), f64::floor) {
                Err(Ended::Fault(fault)) => fault,
                other => panic!("{other:?} where a fault should be"),
            }
        };
        assert_eq!(
            told(""),
            "it ends where a float by its 16 digits should stand"
        );
        assert_eq!(
            told("1.5"),
            "1.5 stands where a float by its 16 digits should"
        );
        assert_eq!(told("3FF0000000000000 7"), "7 stands where it should end");
    }

    #[test]
    fn a_share_is_rounded_up() {
        let share = Amount::Share {
            part: 1_000,
            whole: 3,
        };
        assert_eq!((share.of(1), share.of(3)), (334, 1_000));
        assert_eq!(Amount::Each(5_000_000).of(60), 300);
        assert_eq!(Amount::Each(7).of(20_000), 7);
    }

    #[test]
    fn chosen_bytes_make_one_input_of_one_comparison() {
        let mut driver = driver(Task::Chosen {
            turn: 1,
            bytes: vec![0, 13],
        });
        for name in ["first", "second", "third"] {
            let told = driver.compare(name, FEW, any, |&x| x, |_| 1.0);
            assert_eq!(told, Ok(()));
        }
        assert_eq!(driver.tally(), [("second".into(), 1)]);
    }
}
