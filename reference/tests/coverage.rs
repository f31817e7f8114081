//! The generators reach success and every error that each function can give, and no other; and bad
//! texts that stop being good anywhere.

mod common;

use std::collections::BTreeSet;

use common::*;
use reference::generate::{bundles, capacity, pairs, streams, tables, Random};
use reference::{Error, JoinError, Mode};

const SEEDS: u64 = 25_000;

/// The error numbers that come up, with 0 for success.
fn numbers<T>(mut call: impl FnMut(&mut Random) -> Result<T, Error>) -> Vec<u8> {
    let mut seen = BTreeSet::new();
    for_seeds(SEEDS, |_, random| {
        let result = call(random);
        seen.insert(result.map_or_else(|error| error.number, |_| 0));
    });
    seen.into_iter().collect()
}

#[test]
fn check_and_read() {
    let lenient = [0, 1, 2, 3, 4, 5, 6, 7, 8];
    let strict = [0, 1, 2, 3, 4, 5, 6, 7, 8, 11];
    for (mode, expected) in [(Mode::Lenient, &lenient[..]), (Mode::Strict, &strict[..])] {
        let checked = numbers(|random| reference::check(&bundles::bundle(random), mode));
        assert_eq!(checked, expected);
        let read = numbers(|random| {
            let capacity = bundles::row_capacity(random);
            read_into(&bundles::bundle(random), mode, capacity)
        });
        assert_eq!(read, expected);
    }
}

#[test]
fn writing() {
    let written = numbers(|random| {
        let table = tables::table(random);
        write(&table.rows, &table.text, table.capacity)
    });
    assert_eq!(written, [0, 1, 2, 3, 5, 6, 7, 8, 9, 10]);
}

#[test]
fn canonicalizing() {
    let with_plenty = |random: &mut Random| canonicalize(&bundles::bundle(random), PLENTY);
    let expected = [0, 1, 2, 3, 4, 5, 6, 7, 8, 10];
    // Even with plenty of capacity 10 comes up, where the canonical form is too long.
    assert_eq!(numbers(with_plenty), expected);
    let with_any = |random: &mut Random| {
        let bundle = bundles::bundle(random);
        let capacity = capacity(random, bundle.len());
        canonicalize(&bundle, capacity)
    };
    assert_eq!(numbers(with_any), expected);
}

#[test]
fn joining() {
    let mut seen = BTreeSet::new();
    for_seeds(SEEDS, |_, random| {
        let pair = pairs::pair(random);
        let result = join(&pair.first, &pair.second, pair.capacity);
        seen.insert(result.map_or_else(|refused| (refused.side, refused.error.number), |_| (0, 0)));
    });
    let of_both = [0, 7, 8, 10].map(|number| (0, number));
    let of_each = (1..=2).flat_map(|side| (1..=8).map(move |number| (side, number)));
    assert_eq!(seen, of_both.into_iter().chain(of_each).collect());
}

#[test]
fn joining_with_plenty_of_capacity() {
    let mut seen = BTreeSet::new();
    for_seeds(SEEDS, |_, random| {
        let pair = pairs::pair(random);
        if let Err(refused) = join(&pair.first, &pair.second, PLENTY) {
            if refused.side == 0 {
                seen.insert(refused.error.number);
            }
        }
    });
    assert_eq!(seen, BTreeSet::from([7, 8, 10]));
}

/// Where in a content of this length a bad text stops being good.
fn sort_of_place(offset: usize, length: usize) -> &'static str {
    match offset {
        0 => "first byte",
        _ if offset == length => "end",
        1..=15 => "early",
        16..=63 => "later",
        _ => "late",
    }
}

/// All sorts of places, for each of these groups.
fn all_places<G: Ord + Copy>(groups: &[G]) -> BTreeSet<(G, &'static str)> {
    let sorts = ["first byte", "end", "early", "later", "late"];
    let of_group = |group: &G| sorts.map(|sort| (*group, sort));
    groups.iter().flat_map(of_group).collect()
}

/// The sort of place at which a bundle with a bad text is refused.
fn sort_in_bundle(bundle: &[u8], mode: Mode, found: Error) -> &'static str {
    let lead = lead_of_bad_text(bundle, mode, found);
    let sz = usize::from(bundle[lead] & 31);
    let digits = &bundle[lead + 1..][..sz.saturating_sub(23)];
    let number = digits
        .iter()
        .fold(0, |number, digit| number << 8 | usize::from(*digit));
    let length = if digits.is_empty() { sz } else { number };
    sort_of_place(found.place - (lead + 1 + digits.len()), length)
}

#[test]
fn places_of_bad_texts_read() {
    let mut seen = BTreeSet::new();
    for mode in MODES {
        for_seeds(SEEDS, |_, random| {
            let bundle = bundles::bundle(random);
            match reference::check(&bundle, mode) {
                Err(found) if found.number == 3 => {
                    seen.insert((mode == Mode::Strict, sort_in_bundle(&bundle, mode, found)));
                }
                _ => {}
            }
        });
    }
    assert_eq!(seen, all_places(&[false, true]));
}

#[test]
fn places_of_bad_texts_joined() {
    let mut seen = BTreeSet::new();
    for_seeds(SEEDS, |_, random| {
        let pairs::Pair {
            first,
            second,
            capacity,
        } = pairs::pair(random);
        match join(&first, &second, capacity) {
            Err(JoinError { side, error }) if error.number == 3 => {
                let bundle = if side == 1 { first } else { second };
                seen.insert((side, sort_in_bundle(&bundle, Mode::Lenient, error)));
            }
            _ => {}
        }
    });
    assert_eq!(seen, all_places(&[1, 2]));
}

#[test]
fn places_of_bad_texts_written() {
    let mut seen = BTreeSet::new();
    for_seeds(SEEDS, |_, random| {
        let table = tables::table(random);
        match write(&table.rows, &table.text, table.capacity) {
            Err(found) if found.number == 3 => {
                let row = table.rows[found.row];
                let sort = sort_of_place(found.place - row.start, row.number as usize);
                seen.insert((found.row > 0, sort));
            }
            _ => {}
        }
    });
    assert_eq!(seen, all_places(&[false, true]));
}

#[test]
fn opening() {
    let opened = numbers(|random| reference::open(&streams::stream(random)).map(<[u8]>::len));
    assert_eq!(opened, [0, 12, 13]);
}

#[test]
fn closing() {
    let closed = numbers(|random| {
        let bundle = bundles::bundle(random);
        let capacity = capacity(random, 3 + bundle.len());
        close(&bundle, capacity)
    });
    assert_eq!(closed, [0, 1, 10]);
}

#[test]
fn programs() {
    let mut words = BTreeSet::new();
    for_seeds(4_000, |_, random| {
        let printed = reference::listing(&streams::stream(random));
        for line in String::from_utf8(printed).unwrap().lines() {
            let line = line.split(' ').collect::<Vec<_>>();
            match line[..] {
                ["envelope", _, "refused", number] => words.insert(format!("envelope {number}")),
                ["bundle", _, "refused", number, ..] => words.insert(format!("bundle {number}")),
                ["bundle", _, "rows", ..] => words.insert("good".to_string()),
                _ => false,
            };
        }
    });
    let mut expected = BTreeSet::from(["good", "envelope 12", "envelope 13"].map(String::from));
    // A bundle of more than 16,384 bytes does not fit in an envelope, so it is never refused 1.
    expected.extend((2..=8).map(|number| format!("bundle {number}")));
    assert_eq!(words, expected);
}

#[test]
fn limits_are_met_exactly() {
    let (mut rows, mut entries, mut sizes) = (BTreeSet::new(), BTreeSet::new(), BTreeSet::new());
    let (mut grown, mut results) = (0, BTreeSet::new());
    for_seeds(SEEDS, |_, random| {
        let bundle = bundles::boundary(random);
        if let Ok((_, counts)) = lenient(&bundle) {
            rows.insert(counts.rows);
            entries.insert(counts.entries);
            sizes.insert(bundle.len());
        }
        if let Ok(canonical) = canonicalize(&bundle, PLENTY) {
            grown += usize::from(canonical.len() > bundle.len());
            results.insert(canonical.len());
        }
    });
    assert_eq!(rows.last(), Some(&1_024));
    assert_eq!(entries.last(), Some(&256));
    assert_eq!(sizes.last(), Some(&16_384));
    assert_eq!(results.last(), Some(&16_384));
    assert!(grown > 100);
}

#[test]
fn a_seed_decides_all() {
    let draw = |seed| {
        let random = &mut Random::new(seed);
        let pair = pairs::pair(random);
        let table = tables::table(random);
        let bundles = [bundles::bundle(random), pair.first, pair.second, table.text];
        (
            bundles,
            table.rows,
            streams::stream(random),
            pairs::triple(random),
        )
    };
    for seed in 0..200 {
        assert_eq!(draw(seed), draw(seed));
    }
    assert_ne!(draw(1), draw(2));
}
