//! A number that was read prints as its written text; and a list of texts, both ways.
use gatherloom::{read_number, write_number, Decimal, Refusal};
use gatherloom_compare::reference;
use std::{fs, path::PathBuf};

const VALUES: [i64; 8] = [
    0,
    1,
    -1,
    2150,
    -2150,
    123_456_789_012,
    999_999_999_999_999_999,
    -999_999_999_999_999_999,
];

#[test]
fn a_number_prints_as_its_written_text() {
    let mut printed = 0;
    for width in 1..=20 {
        for decimals in 0..=15 {
            for value in VALUES {
                let mut text = vec![b'#'; width];
                if write_number(&mut text, decimals, value).is_err() {
                    continue;
                }
                let read = read_number(&text, decimals).unwrap().unwrap();
                assert_eq!((read.units(), read.decimals()), (value, decimals));
                assert_eq!(read.to_string().as_bytes(), text.trim_ascii_start());
                printed += 1;
            }
        }
    }
    assert!(printed > 1000);
}

#[test]
fn a_number_prints_with_its_point() {
    let printed = |text: &[u8], decimals| read_number(text, decimals).unwrap().unwrap().to_string();
    assert_eq!(printed(b"   2.150", 3), "2.150");
    assert_eq!(printed(b"-0.001", 3), "-0.001");
    assert_eq!(printed(b"  2150", 0), "2150");
    assert_eq!(read_number(b"      ", 3), Ok(None));
    assert_eq!(read_number(b"   2,150", 3), Err(Refusal::Comma));
}

#[test]
fn a_dropped_zero_is_read_and_written() {
    let number = read_number(b"    .150", 3).unwrap().unwrap();
    assert_eq!((number.units(), number.to_string()), (150, "0.150".into()));
    let number = read_number(b"-.150", 3).unwrap().unwrap();
    assert_eq!(
        (number.units(), number.to_string()),
        (-150, "-0.150".into())
    );
    let mut text = *b"-.150";
    assert_eq!(write_number(&mut text, 3, -150), Err(Refusal::DoesNotFit));
    assert_eq!(&text, b"-.150");
    for text in [b" .000", b"-.000", b"+.150", b". 150"] {
        assert_eq!(read_number(text, 3), Err(Refusal::NotANumber));
    }
}

/// What the list of the program `test_vectors` says of a text: a value, `empty` or `refused N`.
fn listed(answer: &str) -> Result<Option<i64>, u32> {
    match answer.split_once(' ') {
        Some((_, number)) => Err(number.parse().unwrap()),
        None if answer == "empty" => Ok(None),
        None => Ok(Some(answer.parse().unwrap())),
    }
}

#[test]
fn the_texts_of_the_list_read_as_it_says() {
    let list = PathBuf::from(env!("CARGO_MANIFEST_DIR")).join("../../crates/test_vectors");
    let lines = fs::read_to_string(list.join("stdin")).unwrap();
    let answers = fs::read_to_string(list.join("stdout")).unwrap();
    let mut read = 0;
    for (line, answer) in lines.lines().zip(answers.lines()) {
        let Some(rest) = line.strip_prefix("n ") else {
            continue;
        };
        let (decimals, text) = rest.split_once(' ').unwrap();
        let (decimals, text) = (decimals.parse().unwrap(), text.as_bytes());
        let units = |value: Option<Decimal>| value.map(Decimal::units);
        let library = read_number(text, decimals).map(units);
        assert_eq!(library.map_err(Refusal::code), listed(answer), "{line}");
        assert_eq!(
            reference::number_read(text, decimals),
            listed(answer),
            "{line}"
        );
        read += 1;
    }
    assert!(read > 50);
}
