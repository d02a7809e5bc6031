//! Lists by the library, by an older one and by the reference, taking turns.
//!
//! All of them fill the same lists, which are not cleared between calls.

#[cfg(all(feature = "before", not(feature = "before-lists")))]
#[cfg_attr(not(feature = "before-statistics"), path = "lister_before.rs")]
#[cfg_attr(feature = "before-statistics", path = "lister_before_statistics.rs")]
mod lister_before;

use crate::turns::Sides;
use crate::{lister, sample};
use reference::generator::workload::Workload;
use reference::list::{self, Ends, Filled};
use reference::{MAX_RECORDS, Question};
use std::hint::black_box;

/// Who lists messages and chains.
#[derive(Clone, Copy)]
pub struct Lister {
    messages: fn(Question, &mut [Ends]) -> Filled,
    chain: fn(Question, u64, &mut [u64]) -> Filled,
}

/// The older library, if it lists anything.
#[cfg(all(feature = "before", not(feature = "before-lists")))]
const BEFORE: Option<Lister> =
    Some(Lister { messages: lister_before::messages, chain: lister_before::chain });
#[cfg(not(all(feature = "before", not(feature = "before-lists"))))]
const BEFORE: Option<Lister> = None;

pub fn listers() -> Sides<Lister> {
    Sides {
        ours: Lister { messages: lister::messages, chain: lister::chain },
        before: BEFORE,
        reference: Lister { messages: list::messages, chain: list::chain },
    }
}

/// What is listed of a trace.
#[derive(Clone, Copy)]
pub enum Wish {
    Messages,
    /// Of the last record that a trace may have.
    ChainOfLast,
}

/// A list that is filled again and again.
pub struct Lists<'a> {
    workload: &'a Workload,
    wish: Wish,
    messages: Vec<Ends>,
    chain: Vec<u64>,
    /// So many calls are a sample.
    many: u32,
    /// What every side answers.
    pub expected: Filled,
}

impl<'a> Lists<'a> {
    /// Lets every side fill the list once, and tells where one of them differs from the reference.
    pub fn of(workload: &'a Workload, wish: Wish) -> Result<Lists<'a>, String> {
        let (messages, chain) = (vec![Ends::default(); MAX_RECORDS], vec![0; MAX_RECORDS]);
        let expected = Filled::default();
        let mut lists = Lists { workload, wish, messages, chain, many: 1, expected };
        let sides = listers();
        lists.expected = lists.call(sides.reference);
        let expected = (lists.expected, lists.messages.clone(), lists.chain.clone());
        for (side, &held) in sides.held_to_it() {
            lists.messages.fill(Ends::default());
            lists.chain.fill(0);
            let given = lists.call(held);
            if (given, &lists.messages, &lists.chain) != (expected.0, &expected.1, &expected.2) {
                let name = workload.name;
                return Err(format!(
                    "{name}: answers or lists differ, {side} and reference:\n  {given:?}\n  {:?}",
                    expected.0
                ));
            }
        }
        lists.many = sample::many_like(|| {
            black_box(lists.call(sides.reference));
        });
        Ok(lists)
    }

    fn call(&mut self, lister: Lister) -> Filled {
        let &Workload { asked, ref trace, ref latencies, .. } = self.workload;
        let question = Question { trace, latencies, asked };
        match self.wish {
            Wish::Messages => (lister.messages)(question, &mut self.messages),
            Wish::ChainOfLast => (lister.chain)(question, MAX_RECORDS as u64 - 1, &mut self.chain),
        }
    }

    /// The microseconds of one call, by a sample of calls.
    pub fn sample(&mut self, lister: Lister) -> f64 {
        sample::microseconds(self.many, || {
            black_box(self.call(lister));
        })
    }
}
