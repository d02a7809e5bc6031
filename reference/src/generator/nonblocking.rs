//! Nonblocking messages: sends that are begun, receives that finish later, and the records that such calls
//! leave beside them, with the data that the report's tables 7 and 8 give.

use super::random::Random;
use super::record::{Data, Record, any_data};

/// A longer run stays without those records, so that few come to the limits by them.
const LONGEST: usize = 400;

/// How many of a hundred sends, and how many of a hundred receives, are nonblocking. The two are chosen
/// apart, so that blocking ones meet nonblocking ones both ways.
#[derive(Clone, Copy)]
pub struct Mixture {
    sends: u64,
    receives: u64,
}

impl Mixture {
    pub fn any(random: &mut Random) -> Mixture {
        let shares = [0, 30, 60, 100];
        Mixture { sends: random.pick(&shares), receives: random.pick(&shares) }
    }

    /// The event of one send.
    pub fn send(self, random: &mut Random) -> i64 {
        if random.chance(self.sends) { -27 } else { -21 }
    }

    /// The event of one receive.
    pub fn receive(self, random: &mut Random) -> i64 {
        if random.chance(self.receives) { random.pick(&[-58, -60, -61]) } else { random.pick(&[-51, -52]) }
    }
}

/// The same messages by other events.
pub fn mix_events(random: &mut Random, records: &mut [Record]) {
    let mixture = Mixture::any(random);
    for record in records {
        if record.is_send() {
            record.event = mixture.send(random);
        } else if record.is_receive() {
            record.event = mixture.receive(random);
        }
    }
}

/// A run with the records that nonblocking calls leave beside their messages: the post of a receive
/// anywhere before it on its processor, so that receives finish in another order than they were posted;
/// the end of a send anywhere behind it; and now and then a call that finds either not complete.
pub fn with_requests(random: &mut Random, records: Vec<Record>) -> Vec<Record> {
    let often = if records.len() > LONGEST { 0 } else { random.pick(&[0, 50, 100]) };
    let mut before: Vec<Vec<Record>> = vec![Vec::new(); records.len()];
    let mut behind = before.clone();
    for (place, message) in records.iter().enumerate() {
        let Data::Wholes(values) = &message.data else { continue };
        if !message.is_nonblocking() || !random.chance(often) {
            continue;
        }
        let (kind, partner) = (values[1], values[2]);
        // PICL's own request id is the message type; others number their requests.
        let id = if random.chance(30) { kind } else { place as i64 };
        let own = |other: &usize| records[*other].processor == message.processor;
        if message.is_send() {
            behind[place].push(beside(message, -4, -27, &[id]));
            let later: Vec<usize> = (place..records.len()).filter(own).collect();
            if random.chance(30) {
                let end = random.pick(&later);
                behind[end].push(not_complete(random, &records[end], -29));
            }
            let (end, event) = (random.pick(&later), random.pick(&[-28, -30, -31]));
            behind[end].push(beside(&records[end], -3, event, &[id]));
            behind[end].push(beside(&records[end], -4, event, &[]));
        } else {
            // Everything else goes in front of this entry, so that its exit is next.
            before[place].push(beside(message, -3, message.event, &[id]));
            let earlier: Vec<usize> = (0..=place).filter(own).collect();
            if random.chance(30) {
                let call = random.pick(&earlier);
                before[call].insert(0, not_complete(random, &records[call], -59));
            }
            let post = random.pick(&earlier);
            let wanted = &[kind, partner, 0][..random.place(3) + 1];
            let [entry, exit] =
                [(-3, wanted), (-4, &[id])].map(|(side, values)| beside(&records[post], side, -57, values));
            before[post].splice(0..0, [entry, exit]);
        }
    }
    let calls = before.into_iter().zip(records).zip(behind);
    calls.flat_map(|((before, record), behind)| before.into_iter().chain([record]).chain(behind)).collect()
}

/// A record of the same processor at the same time.
fn beside(neighbour: &Record, record_type: i64, event: i64, values: &[i64]) -> Record {
    let data = if values.is_empty() { Data::None } else { Data::Wholes(values.to_vec()) };
    Record { data, ..Record::local(record_type, event, neighbour.time, neighbour.processor) }
}

/// The tables give no data for -29 and -59.
fn not_complete(random: &mut Random, neighbour: &Record, event: i64) -> Record {
    Record { data: any_data(random), ..beside(neighbour, random.pick(&[-2, -3, -4]), event, &[]) }
}
