//! How often a run has met each case of some kind.

/// Words for a case, and whether a thing is one.
pub type Case<T> = (&'static str, fn(&T) -> bool);

pub trait Counted: Sized + 'static {
    const KIND: &'static str;
    const CASES: &'static [Case<Self>];
}

pub struct Counts<T: 'static> {
    cases: &'static [Case<T>],
    times: Vec<usize>,
}

impl<T: Counted> Default for Counts<T> {
    fn default() -> Counts<T> {
        Counts { cases: T::CASES, times: vec![0; T::CASES.len()] }
    }
}

impl<T: Counted> Counts<T> {
    pub fn count(&mut self, thing: &T) {
        for ((_, is_met), times) in self.cases.iter().zip(&mut self.times) {
            *times += usize::from(is_met(thing));
        }
    }

    pub fn print(&self) {
        for ((words, _), times) in self.cases.iter().zip(&self.times) {
            println!("{} {words}: {times}", T::KIND);
        }
    }

    /// The cases, and whether they were met.
    pub fn cases(&self) -> Vec<(String, bool)> {
        let words = |words: &str| format!("{} {words}", T::KIND);
        self.cases.iter().zip(&self.times).map(|((case, _), times)| (words(case), *times > 0)).collect()
    }
}
