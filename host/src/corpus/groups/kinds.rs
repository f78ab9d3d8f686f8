//! What a question is an example of, so that a comparison can show what came up.

use crate::group::program::{Answer, Question};
use crate::group::{telegrams, Fault};
use crate::{check, read, MAX_VALUES};
use std::fmt::{self, Display};

/// What a question is an example of; it can be one of several.
#[derive(Clone, Copy, Debug, PartialEq, Eq, PartialOrd, Ord)]
pub enum Kind {
    /// An accepted group of so many telegrams.
    Accepted(usize),
    /// An accepted group whose telegrams do not arrive in order of N_PIG.
    OutOfOrder,
    /// An accepted group with copies.
    Copies,
    /// An accepted group with three copies or more that are all one.
    Chain,
    /// A group whose fault is in one telegram, by its refusal number.
    Telegram(u32),
    /// A group whose fault is in the telegram with this arrival number.
    Arrival(u64),
    /// A group whose telegrams are all accepted by themselves, by its refusal number.
    Group(u32),
    /// A line that is no question.
    NoQuestion,
}

impl Display for Kind {
    fn fmt(&self, text: &mut fmt::Formatter) -> fmt::Result {
        match self {
            Kind::Accepted(1) => write!(text, "accepted with 1 telegram"),
            Kind::Accepted(count) => write!(text, "accepted with {count} telegrams"),
            Kind::OutOfOrder => write!(text, "accepted in another order of arrival"),
            Kind::Copies => write!(text, "accepted with copies"),
            Kind::Chain => write!(text, "accepted with a chain of three or more"),
            Kind::Telegram(10) => write!(text, "refused by 10 in one telegram"),
            Kind::Telegram(number) => write!(text, "refused by {number}"),
            Kind::Arrival(arrival) => write!(text, "refused in telegram {arrival}"),
            Kind::Group(10) => write!(text, "refused by 10 over the group"),
            Kind::Group(number) => write!(text, "refused by {number}"),
            Kind::NoQuestion => write!(text, "not a question"),
        }
    }
}

/// What a line is an example of, with the answer that it got.
pub fn kinds(asked: Option<&(Question, Answer)>) -> Vec<Kind> {
    match asked {
        None => vec![Kind::NoQuestion],
        Some((question, Ok(_))) => of_accepted(question),
        Some((question, Err(fault))) => of_refused(question, fault),
    }
}

fn of_accepted(question: &Question) -> Vec<Kind> {
    let mut headers: Vec<(u64, u64)> = telegrams(&question.bytes, &question.ns)
        .map(|(bytes, n)| position(bytes, n))
        .collect();
    let mut kinds = vec![Kind::Accepted(headers.len())];
    if !headers.is_sorted() {
        kinds.push(Kind::OutOfOrder);
    }
    headers.sort();
    // Two neighbours of which one names the other are the same; a run of such pairs is a chain.
    let joined = |pair: &[(u64, u64)]| pair[0].1 == 1 || pair[1].1 == 2;
    let pairs: Vec<bool> = headers.windows(2).map(joined).collect();
    let longest = pairs.split(|joined| !joined).map(<[bool]>::len).max();
    let longest = longest.unwrap_or(0) + 1;
    kinds.extend((longest >= 2).then_some(Kind::Copies));
    kinds.extend((longest >= 3).then_some(Kind::Chain));
    kinds
}

/// N_PIG and M_DUP of an accepted telegram, by the reader.
fn position(bytes: &[u8], n: u64) -> (u64, u64) {
    let mut values = [0; MAX_VALUES];
    let _ = read(bytes, n, &mut values);
    (values[3], values[5])
}

fn of_refused(question: &Question, fault: &Fault) -> Vec<Kind> {
    let mut telegrams = telegrams(&question.bytes, &question.ns);
    match telegrams.all(|(bytes, n)| check(bytes, n).is_ok()) {
        true => vec![Kind::Group(fault.number)],
        false => vec![Kind::Telegram(fault.number), Kind::Arrival(fault.which)],
    }
}
