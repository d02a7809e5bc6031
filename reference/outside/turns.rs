//! Sides that take turns, and the rows that are printed of them.
//!
//! Whatever else the machine does falls on all sides alike. A time is the median of its samples, with the
//! tenth and the ninetieth of a hundred beside it.

use std::iter;
use std::time::{Duration, Instant};

/// So many samples are taken of each side, however long they last.
pub const LEAST_SAMPLES: usize = 20;

/// Cantuvesh, an older one where there is one, and the reference: what is run, or the samples of it.
#[derive(Default)]
pub struct Sides<T> {
    pub ours: T,
    pub before: Option<T>,
    pub reference: T,
}

impl<T> Sides<T> {
    /// Those that have to do as the reference does, with their names.
    pub fn held_to_it(&self) -> impl Iterator<Item = (&'static str, &T)> {
        iter::once(("cantuvesh", &self.ours)).chain(self.before.as_ref().map(|before| ("before", before)))
    }
}

/// How long one side took in each turn, in microseconds.
type Samples = Vec<f64>;

/// One thing that all sides do, and how long each took.
pub struct Row {
    name: &'static str,
    samples: Sides<Samples>,
}

impl Row {
    /// Lets the sides take turns for so long: `sample` runs one of them, and says its microseconds.
    pub fn measured<S, E>(
        name: &'static str,
        sides: &Sides<S>,
        time: Duration,
        mut sample: impl FnMut(&S) -> Result<f64, E>,
    ) -> Result<Row, E> {
        let before = sides.before.as_ref().map(|_| Samples::default());
        let mut samples = Sides { before, ..Sides::default() };
        let start = Instant::now();
        let mut turn = 0;
        while turn < LEAST_SAMPLES || start.elapsed() < time {
            for (side, samples) in in_order(turn, sides, &mut samples) {
                samples.push(sample(side)?);
            }
            turn += 1;
        }
        Ok(Row { name, samples })
    }

    /// The row, and a second line for the older Cantuvesh.
    pub fn print(&self) {
        let Sides { ours, before, reference } = &self.samples;
        print_line(self.name, &figures(ours), &figures(reference), median(ours) / median(reference));
        if let (Some(before), Some(ratio)) = (before, self.ratio_to_before()) {
            print_line("    before", "", &figures(before), ratio);
        }
    }

    /// The median of the turns' own ratios. On a machine that is slow for a while the medians of two equal
    /// sides may fall one into that while and one outside it; the ratios of turns do not depend on it.
    fn ratio_to_before(&self) -> Option<f64> {
        let Sides { ours, before, .. } = &self.samples;
        let ratios: Vec<f64> =
            ours.iter().zip(before.as_ref()?).map(|(ours, before)| ours / before).collect();
        Some(median(&ratios))
    }
}

/// Who runs in this turn, the reference last. The first to run finds the caches as the reference left
/// them, so ours and the older one are first by turns.
fn in_order<'a, S>(
    turn: usize,
    sides: &'a Sides<S>,
    samples: &'a mut Sides<Samples>,
) -> Vec<(&'a S, &'a mut Samples)> {
    let mut order = vec![(&sides.ours, &mut samples.ours)];
    order.extend(sides.before.as_ref().zip(samples.before.as_mut()));
    let first = turn % order.len();
    order.rotate_left(first);
    order.push((&sides.reference, &mut samples.reference));
    order
}

/// The value that so many of a hundred do not exceed.
fn part(values: &[f64], percent: usize) -> f64 {
    let mut sorted = values.to_vec();
    sorted.sort_by(f64::total_cmp);
    sorted[(sorted.len() - 1) * percent / 100]
}

pub fn median(values: &[f64]) -> f64 {
    part(values, 50)
}

fn figures(samples: &[f64]) -> String {
    format!("{:.1} ({:.1} to {:.1})", median(samples), part(samples, 10), part(samples, 90))
}

pub fn print_heads() {
    println!("{:<36}{:>32}{:>32}{:>7}", "microseconds", "cantuvesh", "reference", "ratio");
}

/// Ours, what it is held against, and the ratio of the two.
fn print_line(name: &str, ours: &str, other: &str, ratio: f64) {
    println!("{name:<36}{ours:>32}{other:>32}{ratio:>7.2}");
}

/// The row that lost most against the older Cantuvesh, where there is one.
pub fn print_largest(rows: &[Row]) {
    let ratios = rows.iter().filter_map(|row| Some((row.ratio_to_before()?, row.name)));
    if let Some((ratio, name)) = ratios.max_by(|one, other| one.0.total_cmp(&other.0)) {
        println!("the largest ratio to before: {ratio:.2}, {name}");
    }
}
