//! Runs groups of cases, and tries them on wrong variants.

pub mod compose;
mod inputs;
pub mod lent;
pub mod model;
pub mod obligation;
pub mod text;
pub mod witness;

use crate::ours;
use crate::random::Random;
use crate::tally::Tally;

/// What a run is given.
pub struct Settings {
    pub seed: u64,
    /// How many random inputs a random group makes, where the layer's own number is not wanted.
    pub cases: Option<usize>,
}

/// A named group of cases for a table of functions `S`.
pub struct Group<S> {
    pub name: &'static str,
    pub run: fn(&mut Run<S>),
}

/// A deliberately wrong variant, and the group that has to find it.
pub struct Fault<S> {
    pub name: &'static str,
    pub group: &'static str,
    pub spoil: fn(&mut S),
}

/// One layer: the functions that are compared, its groups, and the faults to try them on.
pub struct Layer<S: 'static> {
    pub ours: S,
    /// How many random inputs a random group makes.
    pub cases: usize,
    pub groups: &'static [Group<S>],
    pub faults: &'static [&'static [Fault<S>]],
}

/// A group being run.
pub struct Run<S> {
    pub ours: S,
    pub cases: usize,
    pub random: Random,
    pub tally: Tally,
}

/// A layer, whatever its functions are.
pub trait Comparison: Sync {
    /// Runs all groups. True where there is no difference, and something was compared.
    fn compare(&self, settings: &Settings) -> bool;

    /// Runs each fault's group on it. True where every fault is found, and each group finds one.
    fn self_test(&self, settings: &Settings) -> bool;
}

impl<S> Group<S> {
    pub fn tally(&self, seed: u64, cases: usize, ours: S) -> Tally {
        let mut run = Run {
            ours,
            cases,
            random: Random::new(seed, self.name),
            tally: Tally::default(),
        };
        (self.run)(&mut run);
        run.tally
    }
}

impl<S: Copy + Sync> Comparison for Layer<S> {
    fn compare(&self, settings: &Settings) -> bool {
        let wanted = self.announce(settings);
        let mut cases = 0;
        let mut differences = 0;
        for group in self.groups {
            let tally = group.tally(settings.seed, wanted, self.ours);
            print_group(group.name, &tally);
            cases += tally.cases;
            differences += tally.differences;
        }
        println!("compared {cases} cases, {differences} differences");
        differences == 0 && cases > 0
    }

    fn self_test(&self, settings: &Settings) -> bool {
        let wanted = self.announce(settings);
        let mut unfound = 0;
        for fault in self.all_faults() {
            let found = self.finds(settings.seed, wanted, fault);
            unfound += usize::from(!found);
        }
        for group in self.groups {
            if !self.all_faults().any(|fault| fault.group == group.name) {
                println!("no fault is tried on the group '{}'", group.name);
                unfound += 1;
            }
        }
        let tried = self.all_faults().count();
        println!("self-test: {tried} wrong variants tried, {unfound} not found");
        unfound == 0
    }
}

impl<S: Copy> Layer<S> {
    /// Says what is run, and returns how many random inputs a group makes.
    fn announce(&self, settings: &Settings) -> usize {
        let wanted = settings.cases.unwrap_or(self.cases);
        println!(
            "seed {}, {wanted} random inputs a group, ours is {}",
            settings.seed,
            ours::NAME
        );
        wanted
    }

    fn all_faults(&self) -> impl Iterator<Item = &'static Fault<S>> {
        self.faults.iter().copied().flatten()
    }

    fn finds(&self, seed: u64, cases: usize, fault: &Fault<S>) -> bool {
        let Some(group) = self.groups.iter().find(|group| group.name == fault.group) else {
            println!("wrong variant '{}': no group '{}'", fault.name, fault.group);
            return false;
        };
        let mut subject = self.ours;
        (fault.spoil)(&mut subject);
        let tally = group.tally(seed, cases, subject);
        println!(
            "wrong variant '{}': {} differences in {} cases of '{}'",
            fault.name, tally.differences, tally.cases, group.name
        );
        if let Some(first) = tally.shown.first() {
            println!("    {first}");
        }
        tally.differences > 0
    }
}

fn print_group(name: &str, tally: &Tally) {
    println!(
        "{name:<50} {:>9} cases, {} differences",
        tally.cases, tally.differences
    );
    for difference in &tally.shown {
        println!("    {difference}");
    }
}
