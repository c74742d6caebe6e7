//! docs/RULES.md, "Examples at the edges", asked of the model and of the original.

use super::Effort;
use crate::model::{Filter, Numbers, Shape, check, planning, program, select};
use crate::original::{from_model, number_of, numbers_of};

const NAME: &str = "examples";

/// Counts what holds, and ends the run on what doesn't.
struct Table(u64);

impl Table {
    fn holds<T: PartialEq + std::fmt::Debug>(&mut self, what: &str, got: T, expected: T) {
        if got != expected {
            println!("{NAME}: {what} DISAGREES\n  got {got:?}, expected {expected:?}");
            std::process::exit(1);
        }
        self.0 += 1;
    }
}

/// Asks every example; they are the same in every run.
pub fn drive(_effort: Effort) {
    let mut table = Table(0);
    numbers(&mut table);
    three(&mut table);
    wrapped(&mut table);
    saturated(&mut table);
    at_capacity(&mut table);
    max_count_0(&mut table);
    families(&mut table);
    println!("{NAME}: {} hold", table.0);
}

fn shape(qbits: u8, rbits: u8) -> Shape {
    Shape { qbits, rbits }
}

/// A holding in both forms; the original's is inserted one by one.
fn both(shape: Shape, held: &[u64]) -> (Filter, qfilter::Filter) {
    let empty = Filter::new(shape, 0, Vec::new());
    let mut original = from_model(&empty, &empty.image());
    for &fingerprint in held {
        original.insert_without_growth(u64::MAX, fingerprint).expect("there is room");
    }
    (Filter::new(shape, 0, held.to_vec()), original)
}

fn numbers(table: &mut Table) {
    table.holds("capacity of 64 slots", shape(6, 1).capacity(), 61);
    for (capacity, slots) in [(0, 64), (61, 64), (62, 128), (122, 128), (123, 256)] {
        table.holds("slots", planning::slots_for(capacity), Ok(slots));
        table.holds("slots", qfilter::Filter::needed_slots(capacity).ok(), Some(slots));
    }
    for (qbits, rbits, len) in [(6, 8, 89), (6, 58, 489), (7, 8, 170)] {
        table.holds("buffer bytes", shape(qbits, rbits).buffer_len(), len);
    }
    let max = u64::MAX;
    for (x, n, place) in [
        (0, 0, None),
        (11, 2, Some(3)),
        (1 << 63, 0, Some(63)),
        (max, 63, Some(63)),
        (max, 64, None),
        (max, 128, None),
    ] {
        table.holds("select", select(x, n), place);
    }
    let specs = planning::filter_specs(1000, 0.01).expect("it can be planned");
    table.holds("specs: capacity", specs.max_capacity, 1946);
    table.holds("specs: bits", specs.fingerprint_bits, 18);
    table.holds("specs: bytes", (specs.memory_bytes_min, specs.memory_bytes_max), (121, 2344));
    table.holds("specs: ratio", (specs.max_error_ratio, specs.bits_per_item), (1.0 / 128.0, 9.125));
}

fn three(table: &mut Table) {
    let (filter, original) = both(shape(6, 8), &[0x0203, 0x0105, 0x0103]);
    let mut bytes = vec![0; 89];
    (bytes[1], bytes[9]) = (6, 0x0c);
    bytes[18..21].copy_from_slice(&[3, 5, 3]);
    table.holds("image of 0103 0105 0203", filter.image(), bytes.clone());
    table.holds("the original's bytes", original.buffer(), &bytes);
    let old = [&[0x51, 0x46, 3, 0, 0, 0, 0, 0, 0, 0, 6, 8, 0], &bytes[..]].concat();
    let mut file = [&old[..13], &[0; 8], &bytes].concat();
    let lines = "sound 3\n0000000000000103\n0000000000000105\n0000000000000203\n";
    table.holds("program", program(&file), lines.into());
    file[13..21].copy_from_slice(&[7, 0, 0, 0, 0, 0, 0, 0x80]);
    table.holds("program, of another family", program(&file), lines.into());
    table.holds("program without a family", program(&old), "refused 2\n".into());
    table.holds("program on a short header", program(&file[..20]), "refused 13\n".into());
    table.holds("program on nothing", program(&[]), "refused 13\n".into());
    file[10] = 10;
    table.holds("program at qbits 10", program(&file), "refused 14\n".into());
}

fn wrapped(table: &mut Table) {
    let (filter, original) = both(shape(6, 8), &[0x3f07; 3]);
    let mut bytes = vec![0; 89];
    (bytes[0], bytes[8], bytes[9]) = (2, 0x80, 2);
    (bytes[17], bytes[18], bytes[80]) = (7, 7, 7);
    table.holds("image of three copies of 3f07", filter.image(), bytes.clone());
    table.holds("the original's bytes", original.buffer(), &bytes);
    let slots: Vec<u64> = filter.places().iter().map(|place| place.slot).collect();
    table.holds("their slots, and 0 at the end", slots, vec![63, 0, 1, 0]);
}

fn saturated(table: &mut Table) {
    let (mut filter, mut original) = both(shape(9, 8), &[0; 400]);
    let offsets = |bytes: &[u8]| -> Vec<u8> { bytes.iter().copied().step_by(81).take(8).collect() };
    let before = vec![0, 255, 255, 208, 144, 80, 16, 0];
    table.holds("offsets of 400 copies", offsets(&filter.image()), before.clone());
    table.holds("the original's offsets", offsets(original.buffer()), before);
    let after = vec![0, 255, 255, 207, 143, 79, 15, 0];
    table.holds("a removal", (filter.remove(0), original.remove_fingerprint(0)), (true, true));
    table.holds("offsets of 399 copies", offsets(&filter.image()), after.clone());
    table.holds("the original's offsets", offsets(original.buffer()), after);
}

/// 61 is full and may be sound, 62 to 64 give 5, 65 gives 3.
fn at_capacity(table: &mut Table) {
    let (mut filter, mut original) = both(shape(6, 8), &[9; 61]);
    table.holds("insert at 61", filter.insert(10, 1), Err(7));
    let refused = original.insert_without_growth(1, 10).map_err(number_of);
    table.holds("the original at 61", refused, Err(7));
    table.holds("held is answered first", filter.insert(9, 1), Ok(1));
    table.holds("max_count 0 at 61", [9, 10].map(|hash| filter.insert(hash, 0)), [Ok(0); 2]);
    for (len, number) in [(61, None), (62, Some(5)), (63, Some(5))] {
        table.holds(
            &format!("{len} copies"),
            check(filter.numbers(), &filter.image()).err(),
            number,
        );
        let original = from_model(&filter, &filter.image());
        table.holds("the original counts them", original.count_fingerprint(9), len);
        filter.add(9);
    }
    filter.held.pop();
    let image = filter.image();
    let due = |len: u64| check(Numbers { len, ..filter.numbers() }, &image).err();
    table.holds("64 and 65", [64, 65].map(due), [Some(5), Some(3)]);
}

/// max_count 0 adds nothing; the original adds what is absent.
fn max_count_0(table: &mut Table) {
    let (mut filter, mut original) = both(shape(6, 8), &[]);
    table.holds("max_count 0, absent", filter.insert(5, 0), Ok(0));
    table.holds("none is added", filter.len(), 0);
    let counts = [0, 0].map(|max_count| original.insert_without_growth(max_count, 5).ok());
    table.holds("the original's", counts, [Some(0), Some(1)]);
    table.holds("the original adds", numbers_of(&original).len, 1);
    filter.add(5);
    table.holds("max_count 0, held", filter.insert(5, 0), Ok(0));
    table.holds("no second is added", filter.len(), 1);
    table.holds("max_count 1, held", filter.insert(5, 1), Ok(1));
}

/// 19 exactly if the families differ, and before 8. The original has no family to ask for.
fn families(table: &mut Table) {
    let [filter, wide, narrow] = [8, 9, 7].map(|rbits| Filter::new(shape(6, rbits), 0, vec![5]));
    let strange = filter.clone().of_family(1);
    let both = strange.merge(&strange, true).map(|merged| (merged.len(), merged.family));
    table.holds("one family", both, Ok((2, 1)));
    table.holds("two families", filter.merge(&strange, true), Err(19));
    table.holds("two, wider", strange.merge(&wide, true), Err(19));
    table.holds("two, narrower", strange.merge(&narrow, true), Err(19));
    table.holds("one, narrower", filter.merge(&narrow, true), Err(8));
}
