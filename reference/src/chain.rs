//! Request 7 of document 02: the chain that moved a record, found in two ways. By request 9 the gaps that are
//! kept are waited, as latencies are.

use crate::Solved;
use crate::clock::Floor;
use std::collections::VecDeque;

/// A step from a record back to one that holds it where it is. The processor's goes before the send's.
#[derive(Clone, Copy, Debug, PartialEq, Eq, PartialOrd, Ord)]
pub enum Step {
    Processor,
    Send,
}

/// The steps in the order that the request has for them.
pub const IN_ORDER: [Step; 2] = [Step::Processor, Step::Send];

/// The records of an accepted trace as a chain meets them.
#[derive(Debug)]
pub struct Moved {
    pub floors: Vec<Floor>,
    /// The corrected times.
    pub times: Vec<i64>,
}

impl Moved {
    /// The records of a trace.
    pub fn of(solved: &Solved) -> Moved {
        Moved { floors: solved.floors.clone(), times: solved.settled.times.clone() }
    }

    /// Whether a record is still at its original time.
    pub fn is_at_original(&self, place: usize) -> bool {
        self.times[place] == self.floors[place].original
    }

    /// Where a step from a record goes, and what is waited there.
    pub fn step(&self, place: usize, step: Step) -> Option<(usize, i64)> {
        let Floor { before, send, .. } = self.floors[place];
        match step {
            Step::Processor => before,
            Step::Send => send,
        }
    }

    /// The same, if the record is there no later than it has to be by that step.
    pub fn tight(&self, place: usize, step: Step) -> Option<usize> {
        let (cause, wait) = self.step(place, step)?;
        (self.times[cause] + wait == self.times[place]).then_some(cause)
    }

    /// The chain of a record, nearest records first: of those as near, those that are reached by the earlier
    /// of these steps where their ways part. None if there is no chain, as there is of every accepted trace.
    pub fn nearest(&self, asked: usize, order: [Step; 2]) -> Option<Vec<usize>> {
        let mut from = vec![None; self.floors.len()];
        from[asked] = Some(asked);
        let mut reached = VecDeque::from([asked]);
        while let Some(place) = reached.pop_front() {
            if self.is_at_original(place) {
                return Some(way_to(place, asked, &from));
            }
            for cause in order.into_iter().filter_map(|step| self.tight(place, step)) {
                if from[cause].is_none() {
                    from[cause] = Some(place);
                    reached.push_back(cause);
                }
            }
        }
        None
    }

    /// The same as the request says it: of all ways back on which no record occurs twice, those to a record
    /// at its original time that come to the moved time by what is waited on the way, then those with the
    /// fewest steps, then the first by its steps. Their number doubles with each record.
    pub fn of_all(&self, asked: usize) -> Option<Vec<usize>> {
        let mut best: Option<Way> = None;
        self.try_all(&mut Way { places: vec![asked], steps: Vec::new(), waited: 0 }, &mut best);
        best.map(|way| way.places)
    }

    /// Tries a way, and all that begin with it.
    fn try_all(&self, way: &mut Way, best: &mut Option<Way>) {
        let (first, here) = (way.places[0], way.places[way.steps.len()]);
        let explains = self.is_at_original(here) && self.times[here] + way.waited == self.times[first];
        if explains && best.as_ref().is_none_or(|best| way.rank() < best.rank()) {
            *best = Some(way.clone());
        }
        for step in IN_ORDER {
            let Some((cause, wait)) = self.step(here, step) else { continue };
            if way.places.contains(&cause) {
                continue;
            }
            way.places.push(cause);
            way.steps.push(step);
            way.waited += wait;
            self.try_all(way, best);
            way.places.pop();
            way.steps.pop();
            way.waited -= wait;
        }
    }
}

/// A way back, from the asked record on.
#[derive(Clone)]
struct Way {
    places: Vec<usize>,
    steps: Vec<Step>,
    waited: i64,
}

impl Way {
    /// The fewest steps, then the first by its steps.
    fn rank(&self) -> (usize, &[Step]) {
        (self.steps.len(), &self.steps)
    }
}

/// The places from the asked record to one that was reached.
fn way_to(reached: usize, asked: usize, from: &[Option<usize>]) -> Vec<usize> {
    let mut way = vec![reached];
    let mut here = reached;
    while let Some(nearer) = from[here].filter(|_| here != asked) {
        way.push(nearer);
        here = nearer;
    }
    way.reverse();
    way
}
