//! What holds for all inputs, tried on generated ones.

mod common;

use common::*;
use reference::generate::model::{self, meanings, Meaning};
use reference::generate::{bundles, capacity, pairs, streams, tables, Random};
use reference::{Error, JoinError, Mode, Row};

fn model_items(random: &mut Random) -> Vec<Meaning> {
    let pool = model::pool(random);
    model::items(random, &pool)
}

/// What a bundle means, read leniently.
fn meaning(bundle: &[u8]) -> Result<Vec<Meaning>, Error> {
    lenient(bundle).map(|(rows, _)| meanings(&rows, bundle))
}

#[test]
fn valid_bundles_read_as_the_model() {
    for_seeds(40_000, |seed, random| {
        let items = model_items(random);
        let bundle = model::canonical(&items);
        assert_eq!(meaning(&bundle), Ok(items.clone()), "seed {seed}");
        assert_eq!(strict(&bundle), lenient(&bundle), "seed {seed}");
        let (_, counts) = lenient(&bundle).unwrap();
        assert_eq!(counts.rows, items.len());
        assert_eq!(counts.entries, model::different_names(&items));
    });
}

#[test]
fn loosened_bundles_read_as_the_model() {
    for_seeds(40_000, |seed, random| {
        let items = model_items(random);
        let canonical = model::canonical(&items);
        let loose = model::loosened(&items, random);
        assert_eq!(meaning(&loose), Ok(items), "seed {seed}");
        assert_eq!(
            canonicalize(&loose, PLENTY),
            Ok(canonical.clone()),
            "seed {seed}"
        );
        match strict(&loose) {
            Ok(_) => assert_eq!(loose, canonical, "seed {seed}"),
            Err(error) => {
                assert_eq!(error.number, 11, "seed {seed}");
                assert_ne!(loose, canonical, "seed {seed}");
            }
        }
    });
}

/// What strict reading says, compared with lenient reading and the canonical form.
fn assert_modes_agree(bundle: &[u8]) {
    let (easy, canonical) = (lenient(bundle), canonicalize(bundle, PLENTY));
    match (strict(bundle), easy) {
        (Ok(strict), easy) => {
            assert_eq!(Ok(strict), easy, "{bundle:02X?}");
            assert_eq!(canonical.as_deref(), Ok(bundle));
        }
        (Err(strict), Ok(_)) => {
            assert_eq!(strict.number, 11, "{bundle:02X?}");
            assert_ne!(canonical.as_deref(), Ok(bundle));
        }
        (Err(strict), Err(easy)) => {
            let earlier = strict.number == 11 && strict.place <= easy.place;
            assert!(strict == easy || earlier, "{bundle:02X?}");
            assert_eq!(canonical, Err(easy));
        }
    }
}

#[test]
fn strict_reading_takes_exactly_the_canonical_bundles() {
    for_seeds(80_000, |_, random| {
        assert_modes_agree(&bundles::bundle(random))
    });
}

#[test]
fn strict_reading_takes_exactly_the_canonical_bundles_among_all_short_ones() {
    assert_modes_agree(&[]);
    for number in 0..=0xFFFF_u16 {
        let [first, second] = number.to_be_bytes();
        assert_modes_agree(&[first]);
        assert_modes_agree(&[first, second]);
    }
    let alphabet = hex("00 03 05 06 18 20 38 5F 60 61 62 78 80 81 98 A0 A1 B8 C0 C1 E0 E1 F8 FF");
    let count = alphabet.len();
    for number in 0..count.pow(4) {
        let digit = |place: u32| alphabet[number / count.pow(place) % count];
        assert_modes_agree(&[0, 1, 2, 3].map(digit));
    }
}

#[test]
fn an_error_leaves_what_stands_before_it_good_or_waiting() {
    for_seeds(40_000, |seed, random| {
        let bundle = bundles::bundle(random);
        for mode in MODES {
            let Err(found) = read(&bundle, mode) else {
                continue;
            };
            assert!(found.place <= bundle.len(), "seed {seed}");
            assert_eq!(found.row, 0, "seed {seed}");
            let lead = match found.number {
                1 => continue,
                3 => lead_of_bad_text(&bundle, mode, found),
                _ => found.place,
            };
            // Before the refused item all is well, but for an item that may be due there.
            match read(&bundle[..lead], mode) {
                Ok(_) => {}
                Err(waiting) => assert_eq!(waiting, error(2, lead), "seed {seed}"),
            }
        }
    });
}

#[test]
fn rows_read_are_well_formed() {
    for_seeds(40_000, |seed, random| {
        let bundle = bundles::bundle(random);
        let Ok((rows, counts)) = lenient(&bundle) else {
            return;
        };
        assert_eq!(rows.len(), counts.rows);
        assert!(counts.fields <= counts.rows && counts.entries <= counts.rows);
        // The text of a row is a bundle, so writing sees nothing wrong with the rows.
        let written = write(&rows, &bundle, PLENTY);
        assert_eq!(written, canonicalize(&bundle, PLENTY), "seed {seed}");
        if let Ok(written) = written {
            assert_eq!(meaning(&written), meaning(&bundle), "seed {seed}");
            assert!(strict(&written).is_ok(), "seed {seed}");
        }
    });
}

#[test]
fn row_capacity_decides_only_about_7() {
    for_seeds(40_000, |seed, random| {
        let bundle = bundles::bundle(random);
        let capacity = bundles::row_capacity(random);
        for mode in MODES {
            let roomy = read(&bundle, mode);
            match (read_into(&bundle, mode, capacity), roomy) {
                (Err(error), roomy) if error.number == 7 && roomy != Err(error) => {
                    // Just the first rows of what is there fit.
                    let before = &bundle[..error.place];
                    let fitting = read(before, mode).map(|(rows, _)| rows.len());
                    let waiting = Err(common::error(2, error.place));
                    assert!(fitting == Ok(capacity) || fitting == waiting, "seed {seed}");
                }
                (result, roomy) => assert_eq!(result, roomy, "seed {seed}"),
            }
        }
        if let Ok((rows, _)) = lenient(&bundle) {
            assert_eq!(
                read_into(&bundle, Mode::Lenient, rows.len()),
                lenient(&bundle)
            );
            if let Some(short) = rows.len().checked_sub(1) {
                let result = read_into(&bundle, Mode::Lenient, short);
                assert_eq!(result.map_err(|error| error.number), Err(7));
            }
        }
    });
}

/// Asserts that a result fits a buffer of its length and no smaller one.
fn assert_needs_its_length(result: &[u8], call: impl Fn(usize) -> Result<Vec<u8>, Error>) {
    assert_eq!(call(result.len()).as_deref(), Ok(result));
    if let Some(short) = result.len().checked_sub(1) {
        assert_eq!(call(short), Err(error(10, 0)));
        assert_eq!(call(0), Err(error(10, 0)));
    }
}

#[test]
fn canonicalizing_needs_the_length_of_its_result() {
    for_seeds(40_000, |_, random| {
        let bundle = bundles::bundle(random);
        if let Ok(canonical) = canonicalize(&bundle, PLENTY) {
            assert!(canonical.len() <= 16_384);
            assert_needs_its_length(&canonical, |capacity| canonicalize(&bundle, capacity));
            assert_eq!(canonicalize(&canonical, PLENTY), Ok(canonical));
        }
    });
}

#[test]
fn good_tables_are_written_as_the_model_says() {
    for_seeds(40_000, |seed, random| {
        let items = model_items(random);
        let table = tables::of_items(random, &items);
        let canonical = model::canonical(&items);
        let written = write(&table.rows, &table.text, table.capacity);
        if table.capacity < canonical.len() {
            assert_eq!(written, Err(error(10, 0)), "seed {seed}");
        } else {
            assert_eq!(written, Ok(canonical), "seed {seed}");
        }
    });
}

#[test]
fn bad_rows_are_refused() {
    for_seeds(20_000, |seed, random| {
        let table = tables::with_bad_row(random);
        let written = write(&table.rows, &table.text, table.capacity);
        assert_eq!(written.map_err(|error| error.number), Err(9), "seed {seed}");
    });
}

#[test]
fn bad_texts_are_refused_where_they_stop_being_good() {
    for_seeds(40_000, |seed, random| {
        let (bundle, error) = bundles::with_bad_text(random);
        assert_eq!(lenient(&bundle), Err(error), "seed {seed}");
        let (table, error) = tables::with_bad_text(random);
        let written = write(&table.rows, &table.text, table.capacity);
        assert_eq!(written, Err(error), "seed {seed}");
    });
}

#[test]
fn what_is_written_reads_as_the_rows() {
    for_seeds(30_000, |seed, random| {
        let table = tables::table(random);
        let (rows, text) = (&table.rows, &table.text);
        if let Ok(written) = write(rows, text, PLENTY) {
            assert_eq!(meaning(&written), Ok(meanings(rows, text)), "seed {seed}");
            assert!(strict(&written).is_ok(), "seed {seed}");
            assert_needs_its_length(&written, |capacity| write(rows, text, capacity));
        }
    });
}

#[test]
fn write_errors_need_only_the_rows_up_to_the_bad_one() {
    for_seeds(40_000, |seed, random| {
        let table = tables::table(random);
        let (rows, text) = (&table.rows, &table.text);
        let Err(found) = write(rows, text, table.capacity) else {
            return;
        };
        assert!(found.number == 3 || found.row == 0, "seed {seed}");
        let bad = match found.number {
            1 | 7 | 10 => return assert_eq!(found.place, 0),
            2 => return assert_eq!(found.place, rows.len(), "seed {seed}"),
            3 => found.row,
            _ => found.place,
        };
        let upto = write(&rows[..=bad], text, table.capacity);
        assert_eq!(upto, Err(found), "seed {seed}");
        let before = write(&rows[..bad], text, PLENTY);
        let fine = before.map_or_else(|error| matches!(error.number, 2 | 10), |_| true);
        assert!(fine, "seed {seed}");
    });
}

/// The rows with their starts moved, to point into a text that stands further back.
fn moved(rows: &[Row], by: usize) -> Vec<Row> {
    let mut rows = rows.to_vec();
    for row in &mut rows {
        if matches!(row.kind, 5 | 9 | 10 | 11) {
            row.start += by;
        }
    }
    rows
}

#[test]
fn joining_is_writing_both_tables_of_rows() {
    for_seeds(35_000, |seed, random| {
        let pairs::Pair {
            first,
            second,
            capacity,
        } = pairs::pair(random);
        let expected = match (lenient(&first), lenient(&second)) {
            (Err(error), _) => Err(JoinError { side: 1, error }),
            (_, Err(error)) => Err(JoinError { side: 2, error }),
            (Ok((rows, _)), Ok((more, _))) => {
                let text = [&first[..], &second].concat();
                if text.len() > 16_384 {
                    return;
                }
                let rows = [rows, moved(&more, first.len())].concat();
                // The place of an error says which row it is; a join has no rows to speak of.
                let joined = write(&rows, &text, capacity);
                joined.map_err(|found| JoinError {
                    side: 0,
                    error: error(found.number, 0),
                })
            }
        };
        assert_eq!(join(&first, &second, capacity), expected, "seed {seed}");
    });
}

#[test]
fn joined_fields_are_those_of_both() {
    for_seeds(20_000, |seed, random| {
        let pair = pairs::pair(random);
        if let Ok(joined) = join(&pair.first, &pair.second, PLENTY) {
            let first = meaning(&pair.first).unwrap();
            let second = meaning(&pair.second).unwrap();
            assert_eq!(
                meaning(&joined),
                Ok([first, second].concat()),
                "seed {seed}"
            );
            assert!(strict(&joined).is_ok(), "seed {seed}");
            let again = |capacity| join(&pair.first, &pair.second, capacity);
            assert_needs_its_length(&joined, |capacity| {
                again(capacity).map_err(|refused| refused.error)
            });
        }
    });
}

#[test]
fn the_empty_bundle_is_the_unit_of_joining() {
    for_seeds(40_000, |seed, random| {
        let bundle = bundles::bundle(random);
        let canonical = canonicalize(&bundle, PLENTY);
        let on_side = |side| {
            let canonical = canonical.clone();
            canonical.map_err(|error| JoinError {
                side: if error.number == 10 { 0 } else { side },
                error,
            })
        };
        assert_eq!(join(&bundle, &[], PLENTY), on_side(1), "seed {seed}");
        assert_eq!(join(&[], &bundle, PLENTY), on_side(2), "seed {seed}");
    });
}

#[test]
fn joining_is_associative() {
    let mut answered = 0;
    for_seeds(40_000, |seed, random| {
        let [a, b, c] = pairs::triple(random);
        let left = join(&a, &b, PLENTY).and_then(|ab| join(&ab, &c, PLENTY));
        let right = join(&b, &c, PLENTY).and_then(|bc| join(&a, &bc, PLENTY));
        if let (Ok(left), Ok(right)) = (left, right) {
            assert_eq!(left, right, "seed {seed}");
            answered += 1;
        }
    });
    assert!(answered > 20_000);
}

#[test]
fn opening_undoes_closing() {
    for_seeds(40_000, |seed, random| {
        let bundle = bundles::bundle(random);
        let capacity = capacity(random, 3 + bundle.len());
        let closed = close(&bundle, capacity);
        if bundle.len() > 16_384 {
            assert_eq!(closed, Err(error(1, 0)));
        } else if capacity < 3 + bundle.len() {
            assert_eq!(closed, Err(error(10, 0)));
        } else {
            let closed = closed.unwrap();
            assert_eq!(closed, streams::envelope(&bundle), "seed {seed}");
            let followed = [closed, bundles::random(random)].concat();
            assert_eq!(reference::open(&followed), Ok(&bundle[..]), "seed {seed}");
        }
    });
}

/// The bundles of a stream, and the error that its last envelope ends with, if any.
fn envelopes(stream: &[u8]) -> (Vec<&[u8]>, Option<Error>) {
    let mut bundles = Vec::new();
    let mut rest = stream;
    while !rest.is_empty() {
        match reference::open(rest) {
            Ok(bundle) => {
                bundles.push(bundle);
                rest = &rest[3 + bundle.len()..];
            }
            Err(error) => return (bundles, Some(error)),
        }
    }
    (bundles, None)
}

#[test]
fn tidying_is_idempotent_and_keeps_the_meaning() {
    for_seeds(30_000, |seed, random| {
        let stream = streams::stream(random);
        let tidied = reference::tidy(&stream);
        assert_eq!(reference::tidy(&tidied), tidied, "seed {seed}");
        let (before, _) = envelopes(&stream);
        let (after, refused) = envelopes(&tidied);
        assert_eq!(refused, None);
        for (tidy, loose) in after.iter().zip(&before) {
            assert!(strict(tidy).is_ok(), "seed {seed}");
            assert_eq!(meaning(tidy), meaning(loose), "seed {seed}");
        }
        if let Some(next) = before.get(after.len()) {
            assert!(canonicalize(next, PLENTY).is_err(), "seed {seed}");
        }
    });
}

/// The numbers in a line that is these words with a number after each.
fn numbers<const N: usize>(line: &str, words: [&str; N]) -> Option<[u64; N]> {
    let mut numbers = [0; N];
    let mut rest = line;
    for (index, word) in words.iter().enumerate() {
        rest = rest.strip_prefix(word)?;
        let end = rest.find(' ').unwrap_or(rest.len());
        numbers[index] = rest[..end].parse().ok()?;
        rest = &rest[end..];
    }
    rest.is_empty().then_some(numbers)
}

/// Takes the lines of one bundle off the listing.
fn assert_bundle_is_listed<'a>(
    bundle: &[u8],
    number: usize,
    lines: &mut impl Iterator<Item = &'a str>,
) {
    let number = number as u64;
    let line = lines.next().expect("a line for each bundle");
    match lenient(bundle) {
        Err(error) => {
            let expected = [number, u64::from(error.number), error.place as u64];
            assert_eq!(
                numbers(line, ["bundle ", " refused ", " at "]),
                Some(expected)
            );
        }
        Ok((rows, counts)) => {
            let expected = [number, rows.len() as u64, counts.entries as u64];
            assert_eq!(
                numbers(line, ["bundle ", " rows ", " names "]),
                Some(expected)
            );
            for (index, row) in rows.iter().enumerate() {
                let line = lines.next().expect("a line for each row");
                let start = row.start as u64;
                let expected = [index as u64, u64::from(row.kind), row.number, start];
                assert_eq!(numbers(line, ["", " ", " ", " "]), Some(expected));
            }
        }
    }
}

#[test]
fn listings_parse() {
    for_seeds(20_000, |_, random| {
        let stream = streams::stream(random);
        let printed = String::from_utf8(reference::listing(&stream)).unwrap();
        assert!(printed.is_empty() == stream.is_empty());
        assert!(printed.is_empty() || printed.ends_with('\n'));
        let mut lines = printed.lines();
        let (bundles, refused) = envelopes(&stream);
        for (index, bundle) in bundles.iter().enumerate() {
            assert_bundle_is_listed(bundle, index + 1, &mut lines);
        }
        if let Some(error) = refused {
            let expected = [bundles.len() as u64 + 1, u64::from(error.number)];
            let line = lines.next().expect("a line for the envelope");
            assert_eq!(numbers(line, ["envelope ", " refused "]), Some(expected));
        }
        assert_eq!(lines.next(), None);
    });
}
