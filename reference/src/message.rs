//! Each receive with its send: the k-th of a sender, receiver and message type with the k-th, whatever
//! events they are.

use crate::line::Role;
use crate::refusal::{LONG_RECEIVE, Refusal, UNMATCHED};
use crate::trace::Record;
use std::collections::{HashMap, VecDeque};

/// The messages of a trace.
#[derive(Debug)]
pub struct Messages {
    /// For each record, the place of its send if it is a receive.
    pub send_of: Vec<Option<usize>>,
    pub matched: u64,
    pub unreceived: u64,
}

/// Pairs the receives with their sends, which may stand later in the file. The first receive that
/// has none, or took more bytes than were sent, decides.
pub fn pair(records: &[Record]) -> Result<Messages, Refusal> {
    let mut sends: HashMap<(usize, usize, i64), VecDeque<(usize, i64)>> = HashMap::new();
    for (place, record) in records.iter().enumerate() {
        if let Role::Send(message) = record.role {
            let channel = (record.processor, message.partner, message.kind);
            sends.entry(channel).or_default().push_back((place, message.length));
        }
    }

    let mut send_of = vec![None; records.len()];
    let mut matched = 0;
    for (place, record) in records.iter().enumerate() {
        if let Role::Receive(message) = record.role {
            let refused = |number| Refusal::of_line(number, record.line);
            let channel = (message.partner, record.processor, message.kind);
            let send = sends.get_mut(&channel).and_then(VecDeque::pop_front);
            let (send, length) = send.ok_or(refused(UNMATCHED))?;
            if message.length > length {
                return Err(refused(LONG_RECEIVE));
            }
            send_of[place] = Some(send);
            matched += 1;
        }
    }
    let unreceived = sends.values().map(|left| left.len() as u64).sum();
    Ok(Messages { send_of, matched, unreceived })
}
