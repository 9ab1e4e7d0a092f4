//! What the C header and the wrapper both say is the same: version, interface, and each refusal's number, name and words.
use gatherloom::{ffi, Refusal};
use std::{fs, path::Path};

fn header() -> String {
    let path = Path::new(env!("CARGO_MANIFEST_DIR")).join("../../include/gatherloom.h");
    fs::read_to_string(path).unwrap()
}

/// What the header defines a name as.
fn defined(header: &str, name: &str) -> String {
    let start = format!("#define {name} ");
    let line = header.lines().find_map(|line| line.strip_prefix(&start));
    line.unwrap().split(' ').next().unwrap().to_string()
}

#[test]
fn versions_and_answers_agree() {
    let header = header();
    let number = |name| defined(&header, name).parse::<u32>().unwrap();
    assert_eq!(number("GL_INTERFACE"), ffi::INTERFACE);
    assert_eq!(unsafe { ffi::gl_interface() }, ffi::INTERFACE);
    assert_eq!(number("GL_EMPTY"), ffi::EMPTY);
    assert_eq!(number("GL_ABSENT"), ffi::ABSENT);
    assert_eq!(number("GL_DONE"), ffi::DONE);
    let version = format!("\"{}\"", env!("CARGO_PKG_VERSION"));
    assert_eq!(defined(&header, "GL_VERSION"), version);
}

/// `KEY_LENGTH` for `KeyLength`.
fn in_capitals(name: &str) -> String {
    let mut made = String::new();
    for (i, c) in name.char_indices() {
        if i > 0 && c.is_uppercase() {
            made.push('_');
        }
        made.push(c.to_ascii_uppercase());
    }
    made
}

#[test]
fn refusals_agree() {
    let header = header();
    let mut numbers = Vec::new();
    for line in header.lines() {
        let Some(line) = line.trim().strip_prefix("GL_REFUSED_") else {
            continue;
        };
        let (name, rest) = line.split_once(" = ").unwrap();
        let (number, words) = rest.split_once("/* ").unwrap();
        let number: u32 = number.trim_end_matches([' ', ',']).parse().unwrap();
        let refusal = Refusal::from_code(number).unwrap();
        assert_eq!(refusal.code(), number);
        assert_eq!(in_capitals(&format!("{refusal:?}")), name);
        assert!(words.starts_with(refusal.words()), "{line}");
        numbers.push(number);
    }
    let known: Vec<u32> = (0..1000)
        .filter(|&n| Refusal::from_code(n).is_some())
        .collect();
    assert_eq!(numbers, known);
}
