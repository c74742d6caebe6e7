//! What docs/RULES.md says under "Examples at the edges" and "Refusals", through this crate.

use strumblay::{Error, Filter, Lookup, Numbers, Place, Widths};

const SMALL: Widths = Widths::new(6, 8);

/// A family with bits set at both ends.
const FAMILY: u64 = 0xfedc_ba98_7654_3211;

fn of(hashes: &[u64]) -> Filter<Vec<u8>> {
    let mut filter = Filter::new(SMALL.family(FAMILY)).unwrap();
    for &hash in hashes {
        filter.insert(hash, u64::MAX).unwrap();
    }
    filter
}

/// The same in a filter that may grow.
fn growing(hashes: &[u64]) -> Filter<Vec<u8>> {
    let (bytes, numbers) = of(hashes).into_parts();
    Filter::from_parts(bytes, Numbers { max_qbits: 7, ..numbers })
}

/// The bytes that are not 0, with their indices.
fn set<B: AsRef<[u8]>>(filter: &Filter<B>) -> Vec<(usize, u8)> {
    filter.buffer().iter().copied().enumerate().filter(|&(_, byte)| byte != 0).collect()
}

#[test]
fn lengths() {
    for (qbits, rbits, bytes) in [(6, 8, 89), (6, 58, 489), (7, 8, 170)] {
        assert_eq!(Widths::new(qbits, rbits).buffer_len(), Ok(bytes));
    }
    assert_eq!(Widths::new(60, 4).buffer_len(), Err(Error::WIDTHS));
}

#[test]
fn three_held() {
    let filter = of(&[0x0203, 0x0105, 0x0103]);
    assert_eq!(set(&filter), [(1, 6), (9, 0x0c), (18, 3), (19, 5), (20, 3)]);
    assert!(filter.fingerprints().unwrap().eq([0x0103, 0x0105, 0x0203]));
    assert_eq!(filter.lookup(0x0105), Ok(Lookup { held: true, compared: 2 }));
    assert_eq!(filter.lookup_quick(0x0104), Ok(Lookup { held: false, compared: 2 }));
}

#[test]
fn a_run_that_wraps() {
    let filter = of(&[0x3f07; 3]);
    assert_eq!(set(&filter), [(0, 2), (8, 0x80), (9, 2), (17, 7), (18, 7), (80, 7)]);
    assert_eq!(filter.count(0x3f07), Ok(3));
    assert_eq!(filter.count_quick(0x3f06), Ok(0));
    let mut places = Vec::new();
    let mut listing = filter.fingerprints().unwrap();
    while listing.next().is_some() {
        places.push((listing.place(), listing.len()));
    }
    let at = |slot, remaining| Place { quotient: 0x3f, slot, remaining };
    assert_eq!(places, [(at(0, 2), 2), (at(1, 1), 1), (Place::default(), 0)]);
    assert_eq!(listing.next(), None);
}

#[test]
fn capacity_and_counts() {
    let mut filter = of(&[]);
    for hash in 0..61 {
        assert_eq!(filter.insert_quick(hash, 1), Ok(0));
    }
    let full = filter.clone();
    assert_eq!(filter.insert(61, 1), Err(Error::NO_ROOM));
    assert_eq!(filter.insert(60, 1), Ok(1));
    assert_eq!(filter.insert_quick(60, 2), Err(Error::NO_ROOM));
    assert_eq!(filter, full);
    assert_eq!(filter.check(), Ok(()));
}

#[test]
fn zero_adds_nothing() {
    for hashes in [vec![], vec![5; 2], (0..61).collect()] {
        let mut filter = growing(&hashes);
        let before = filter.clone();
        // Of the length that growth would need, and of another.
        for (hash, mut spare) in [(5, vec![1; 154]), (99, vec![1; 154]), (99, vec![1; 9])] {
            let whole = spare.clone();
            assert_eq!(filter.insert(hash, 0), Ok(0));
            assert_eq!(filter.insert_quick(hash, 0), Ok(0));
            assert_eq!(filter.insert_spare(hash, 0, &mut spare), Ok(0));
            assert_eq!(filter.insert_spare_quick(hash, 0, &mut spare), Ok(0));
            assert_eq!(filter.insert_growing(hash, 0), Ok(0));
            assert_eq!((&filter, spare), (&before, whole));
        }
    }
}

#[test]
fn zero_on_a_damaged_buffer() {
    let (mut bytes, numbers) = growing(&[5; 3]).into_parts();
    bytes[0] ^= 1;
    let mut filter = Filter::from_parts(bytes.clone(), numbers);
    let mut spare = vec![1; 154];
    assert_eq!(filter.insert(5, 0), Err(Error::NOT_SOUND));
    assert_eq!(filter.insert_quick(5, 0), Ok(0));
    assert_eq!(filter.insert_spare_quick(6, 0, &mut spare), Ok(0));
    assert_eq!((filter.into_parts(), spare), ((bytes, numbers), vec![1; 154]));
}

#[test]
fn refusals_in_order() {
    let buffer = of(&[0x0103]).into_parts().0;
    let check = |buffer: &[u8], len, qbits, max_qbits| {
        Filter::from_parts(buffer, Numbers { len, qbits, rbits: 8, max_qbits, family: 1 }).check()
    };
    assert_eq!(check(&buffer, 1, 6, 0), Ok(()));
    assert_eq!(check(&buffer[..0], 65, 5, 5), Err(Error::WIDTHS));
    assert_eq!(check(&buffer[..88], 65, 6, 5), Err(Error::BUFFER_LENGTH));
    assert_eq!(check(&buffer, 65, 6, 5), Err(Error::TOO_MANY));
    assert_eq!(check(&buffer, 64, 6, 5), Err(Error::MAX_QBITS));
    for len in [62, 63, 64] {
        assert_eq!(check(&buffer, len, 6, 0), Err(Error::TOO_FULL));
    }
    assert_eq!(check(&buffer, 61, 6, 0), Err(Error::NOT_SOUND));
    assert_eq!(check(&buffer, 2, 6, 0), Err(Error::NOT_SOUND));
}

#[test]
fn refused_calls_change_nothing() {
    let (mut buffer, numbers) = of(&[0x0103, 0x0105]).into_parts();
    buffer[88] = 1;
    let mut damaged = Filter::from_parts(buffer.clone(), numbers);
    assert_eq!(damaged.insert(0x0203, 1), Err(Error::NOT_SOUND));
    assert_eq!(damaged.contains(0x0103), Err(Error::NOT_SOUND));
    assert_eq!(damaged.count(0x0103), Err(Error::NOT_SOUND));
    assert_eq!(damaged.fingerprints().err(), Some(Error::NOT_SOUND));
    assert_eq!(damaged.into_parts(), (buffer.clone(), numbers));

    let short = Filter::from_parts(&buffer[1..], numbers);
    let mut place = Place { quotient: 9, slot: 9, remaining: 9 };
    assert_eq!(short.step(&mut place), Err(Error::BUFFER_LENGTH));
    assert_eq!(place, Place { quotient: 9, slot: 9, remaining: 9 });
    assert_eq!(short.contains_quick(0x0103), Err(Error::BUFFER_LENGTH));
    assert_eq!(
        Filter::fresh(&mut buffer[1..], SMALL.family(1)).err(),
        Some(Error::DESTINATION_LENGTH)
    );
}

#[test]
fn planning() {
    let most = 547_637_714_688_252_314;
    assert_eq!(strumblay::slots_for(most), Ok(1 << 59));
    assert_eq!(strumblay::slots_for(most + 1), Err(Error::CAPACITY_TOO_LARGE));
    assert_eq!(strumblay::filter_specs(most, 0.01), Err(Error::TOO_WIDE));
    assert_eq!(Widths::planned(2, 1, 0.01), Err(Error::MAXIMUM_BELOW_INITIAL));
    assert_eq!(Widths::planned(61, 61, f64::NAN), Ok(Widths::new(6, 1)));
}

#[test]
fn four_hundred_and_one_removed() {
    let mut filter = Filter::new(Widths::new(9, 8).family(FAMILY)).unwrap();
    for hash in 0..400 {
        filter.insert_quick(hash % 256, u64::MAX).unwrap();
    }
    let offsets = |filter: &Filter<Vec<u8>>| -> Vec<u8> {
        filter.buffer().chunks_exact(81).map(|block| block[0]).collect()
    };
    assert_eq!(offsets(&filter), [0, 255, 255, 208, 144, 80, 16, 0]);
    assert_eq!(filter.remove(0), Ok(true));
    assert_eq!(offsets(&filter), [0, 255, 255, 207, 143, 79, 15, 0]);
    assert_eq!(filter.remove_quick(256 << 8), Ok(false));
}

#[test]
fn growth_and_merge() {
    let filter = of(&[0x0103, 0x0105]);
    assert_eq!(filter.grown(), Err(Error::NO_ROOM));
    let narrow = Filter::new(Widths::new(6, 7).family(FAMILY)).unwrap();
    assert_eq!(filter.merged(&narrow, true), Err(Error::NARROWER));
    assert_eq!(filter.merge_into(&filter, true, [0; 88]).err(), Some(Error::DESTINATION_LENGTH));
    assert_eq!(filter.merged(&filter, true).unwrap().count(0x0105), Ok(2));
    assert_eq!(filter.merged(&filter, false).unwrap(), filter);

    let (buffer, numbers) = filter.into_parts();
    let mut many = Filter::from_parts(buffer, Numbers { max_qbits: 8, ..numbers });
    for hash in 0..121 {
        many.insert_growing(hash << 6, 1).unwrap();
    }
    assert_eq!((many.len(), many.numbers().qbits), (123, 8));
}

#[test]
fn every_call_carries_the_family_on() {
    let widths = Widths { max_qbits: 8, ..SMALL };
    let mut filter = Filter::new(widths.family(FAMILY)).unwrap();
    let mut spare = vec![0; Widths::new(7, 7).buffer_len().unwrap()];
    assert_eq!((filter.insert(1, 1), filter.family()), (Ok(0), FAMILY));
    assert_eq!((filter.insert_quick(2, 1), filter.family()), (Ok(0), FAMILY));
    assert_eq!((filter.remove(1), filter.family()), (Ok(true), FAMILY));
    assert_eq!((filter.remove_quick(2), filter.family()), (Ok(true), FAMILY));
    assert_eq!((filter.remove(2), filter.family()), (Ok(false), FAMILY));
    assert_eq!((filter.insert_spare(3, 1, &mut spare), filter.family()), (Ok(0), FAMILY));
    assert_eq!((filter.insert_spare_quick(4, 1, &mut spare), filter.family()), (Ok(0), FAMILY));
    assert_eq!(filter.grown().unwrap().family(), FAMILY);
    for hash in 0..62 {
        filter.insert_spare(hash, 1, &mut spare).unwrap();
    }
    assert_eq!((filter.numbers().qbits, filter.family()), (7, FAMILY));
    let mut spare = vec![0; Widths::new(8, 6).buffer_len().unwrap()];
    for hash in 0..123 {
        filter.insert_spare_quick(hash, 1, &mut spare).unwrap();
    }
    assert_eq!((filter.numbers().qbits, filter.family()), (8, FAMILY));
    assert_eq!(filter.merged(&filter, false).unwrap().family(), FAMILY);
    let wider = Filter::new(Widths::new(8, 8).family(FAMILY)).unwrap();
    assert_eq!(filter.merged(&wider, true).unwrap(), filter);
}

#[test]
fn two_families_are_not_merged() {
    let mine = Filter::new(SMALL.family(FAMILY)).unwrap();
    for family in [0, FAMILY ^ 1, FAMILY ^ 1 << 63] {
        // Of equal, of wider and of narrower fingerprints, into a destination that would do and one
        // that would not: 19 is asked before 8 and 12.
        for (rbits, len) in [(8, 89), (9, 89), (7, 89), (8, 88)] {
            let theirs = Filter::new(Widths::new(6, rbits).family(family)).unwrap();
            let mut dest = vec![9; len];
            let refused = mine.merge_into(&theirs, rbits == 8, &mut dest[..]).err();
            assert_eq!((refused, dest), (Some(Error::TWO_FAMILIES), vec![9; len]));
            assert_eq!(mine.merged(&theirs, true), Err(Error::TWO_FAMILIES));
        }
        let (mut buffer, numbers) = Filter::new(SMALL.family(family)).unwrap().into_parts();
        buffer[0] = 1;
        let damaged = Filter::from_parts(buffer, numbers);
        assert_eq!(mine.merged(&damaged, true), Err(Error::NOT_SOUND));
        assert_eq!(damaged.merged(&mine, true), Err(Error::NOT_SOUND));
    }
    assert_eq!(Error::TWO_FAMILIES.to_string(), "refused 19: the two filters are of two families");
}

#[test]
fn the_family_is_not_in_the_bytes() {
    let mut filters = [0, FAMILY].map(|family| Filter::new(SMALL.family(family)).unwrap());
    filters.iter_mut().for_each(|filter| assert_eq!(filter.insert(0x0103, 1), Ok(0)));
    assert_eq!(filters[0].buffer(), filters[1].buffer());
    assert_ne!(filters[0], filters[1]);
}
