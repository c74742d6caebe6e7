//! Makes a disagreement small before it is printed. A call depends on nothing but the filter it
//! finds, so one holding and one call are always enough.

use crate::call::Call;
use crate::model::Filter;
use crate::sequence::{Expected, ask};
use crate::subject::Subject;

/// Prints the smallest input found on which the subject differs, and ends the run.
pub fn report(driver: &str, subject: &mut dyn Subject, filter: Filter, call: Call) -> ! {
    std::panic::set_hook(Box::new(|_| {}));
    let (filter, call) = shrink(subject, filter, call);
    let differs = differs(subject, &filter, &call).unwrap_or("only within its sequence".into());
    println!("{driver}: {} DISAGREES", subject.name());
    println!("  on {}", describe(&filter));
    match &call {
        Call::Merge { other, keep } => println!("  merge, keep {keep}, with {}", describe(other)),
        call => println!("  call {call:x?}"),
    }
    if let Some(rule) = subject.departs(&call) {
        println!("  held to what the rules say of {rule:x?}");
    }
    println!("  {differs}");
    std::process::exit(1)
}

/// Shape and holding in one line.
pub fn describe(filter: &Filter) -> String {
    let shape = filter.shape;
    let held: Vec<String> = filter
        .held
        .chunk_by(|a, b| a == b)
        .map(|same| format!("{:x}*{}", same[0], same.len()))
        .collect();
    let (qbits, rbits, family) = (shape.qbits, shape.rbits, filter.family);
    let head = format!("{qbits}/{rbits}, max_qbits {}, family {family:x}", filter.max_qbits);
    format!("{head}, {} held: {}", filter.len(), held.join(" "))
}

/// Bytes in one word.
pub fn hex(bytes: &[u8]) -> String {
    bytes.iter().map(|byte| format!("{byte:02x}")).collect()
}

fn differs(subject: &mut dyn Subject, filter: &Filter, call: &Call) -> Option<String> {
    subject.load(filter, &filter.image());
    let expected = Expected::of(subject, filter, call);
    ask(subject, call, &expected)?.err()
}

fn shrink(subject: &mut dyn Subject, mut filter: Filter, mut call: Call) -> (Filter, Call) {
    let mut fails = |filter: &Filter, call: &Call| differs(subject, filter, call).is_some();
    filter = fewer(filter, |smaller| fails(smaller, &call));
    if let Call::Merge { other, keep } = call {
        let other =
            fewer(other, |other| fails(&filter, &Call::Merge { other: other.clone(), keep }));
        call = Call::Merge { other, keep };
    }
    (filter, call)
}

/// Leaves out pieces of the holding, ever smaller ones, while the rest still fails.
fn fewer(mut filter: Filter, mut fails: impl FnMut(&Filter) -> bool) -> Filter {
    let mut piece = filter.held.len();
    while piece > 0 {
        let mut at = 0;
        while at < filter.held.len() {
            let mut smaller = filter.clone();
            smaller.held.drain(at..(at + piece).min(filter.held.len()));
            if fails(&smaller) {
                filter = smaller;
            } else {
                at += piece;
            }
        }
        piece /= 2;
    }
    filter
}
