//! Runs a sequence of calls on the model and on every subject, and compares every answer, record
//! and byte after every call.

use crate::call::{Answer, Call, ask_model};
use crate::model::{Filter, Numbers};
use crate::smallest;
use crate::subject::{self, Subject};
use std::panic::{AssertUnwindSafe, catch_unwind};

/// The subjects, how many calls of each agreed, and how many departed in the known way.
pub struct Comparison {
    driver: &'static str,
    subjects: Vec<(Box<dyn Subject>, u64)>,
    departed: u64,
}

/// What the model says to one call.
pub struct Expected {
    pub answer: Answer,
    pub numbers: Numbers,
    pub image: Vec<u8>,
}

impl Expected {
    /// What a subject must say to a call on a filter, its known departure included.
    pub fn of(subject: &dyn Subject, filter: &Filter, call: &Call) -> Expected {
        let mut after = filter.clone();
        let answer = ask_model(&mut after, subject.departs(call).as_ref().unwrap_or(call));
        Expected { answer, numbers: after.numbers(), image: after.image() }
    }
}

impl Comparison {
    /// All subjects, for one driver.
    pub fn new(driver: &'static str) -> Comparison {
        let subjects = subject::all().into_iter().map(|subject| (subject, 0)).collect();
        Comparison { driver, subjects, departed: 0 }
    }

    /// Runs the calls from a start on.
    pub fn run(&mut self, start: &Filter, calls: &[Call]) {
        let mut filter = start.clone();
        let mut image = start.image();
        for (subject, _) in &mut self.subjects {
            subject.load(start, &image);
        }
        for (done, call) in calls.iter().enumerate() {
            self.depart(call, &filter);
            let answer = ask_model(&mut filter, call);
            if call.writes() && !matches!(answer, Answer::Refused(_)) {
                image = filter.image();
            }
            let expected = Expected { answer, numbers: filter.numbers(), image };
            self.compare(call, &filter, &expected, || replay(start, &calls[..done]));
            image = expected.image;
        }
    }

    /// Asks every subject one call, and reports the smallest input that one of them fails on.
    fn compare(
        &mut self,
        call: &Call,
        now: &Filter,
        expected: &Expected,
        before: impl Fn() -> Filter,
    ) {
        for (subject, agreed) in &mut self.subjects {
            if subject.departs(call).is_some() {
                subject.load(now, &expected.image);
                continue;
            }
            match ask(subject.as_mut(), call, expected) {
                Some(Ok(())) => *agreed += 1,
                Some(Err(_)) => {
                    smallest::report(self.driver, subject.as_mut(), before(), call.clone())
                }
                None => subject.load(now, &expected.image),
            }
        }
    }

    /// Asks the subjects that depart from the rules in this call, on the filter before it; `compare`
    /// takes them to where the rules are afterwards.
    fn depart(&mut self, call: &Call, filter: &Filter) {
        for (subject, _) in &mut self.subjects {
            if subject.departs(call).is_none() {
                continue;
            }
            let expected = Expected::of(subject.as_ref(), filter, call);
            if !matches!(ask(subject.as_mut(), call, &expected), Some(Ok(()))) {
                smallest::report(self.driver, subject.as_mut(), filter.clone(), call.clone())
            }
            self.departed += 1;
        }
    }

    /// The driver's last line.
    pub fn finish(self, more: &str) {
        let departed = match self.departed {
            0 => String::new(),
            n => format!(", and {n} known departures"),
        };
        let asked = self.subjects.iter().filter(|(_, agreed)| *agreed > 0);
        let each: Vec<String> =
            asked.map(|(subject, n)| format!("{} {n}", subject.name())).collect();
        let total: u64 = self.subjects.iter().map(|(_, agreed)| agreed).sum();
        println!("{}: {total} calls agree ({}){departed}{more}", self.driver, each.join(", "));
    }
}

/// The model's filter after these calls.
fn replay(start: &Filter, calls: &[Call]) -> Filter {
    let mut filter = start.clone();
    for call in calls {
        ask_model(&mut filter, call);
    }
    filter
}

/// Asks one subject; what differs comes back in words, or none if the call isn't offered.
pub fn ask(
    subject: &mut dyn Subject,
    call: &Call,
    expected: &Expected,
) -> Option<Result<(), String>> {
    let asked = catch_unwind(AssertUnwindSafe(|| subject.ask(call, expected.numbers)));
    let Ok(answer) = asked else {
        return Some(Err("it panicked".into()));
    };
    let answer = answer?;
    if !answer.agrees(&expected.answer) {
        return Some(Err(format!("answer {answer:?}, expected {:?}", expected.answer)));
    }
    if subject.numbers() != expected.numbers {
        let (got, right) = (subject.numbers(), expected.numbers);
        return Some(Err(format!("record {got:?}, expected {right:?}")));
    }
    Some(same_bytes(subject.bytes(), &expected.image))
}

/// The first byte that differs, in words.
pub fn same_bytes(bytes: &[u8], expected: &[u8]) -> Result<(), String> {
    if bytes == expected {
        return Ok(());
    }
    if bytes.len() != expected.len() {
        return Err(format!("{} bytes, expected {}", bytes.len(), expected.len()));
    }
    let at = bytes.iter().zip(expected).position(|(a, b)| a != b).expect("they differ");
    Err(format!("byte {at} is {:02x}, expected {:02x}", bytes[at], expected[at]))
}
