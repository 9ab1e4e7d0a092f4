//! Each line of the dilution sheets of the samples, by the library's call and by the plain implementation.
use gatherloom::{Dilution, Index, Table};
use gatherloom_compare::reference;
use std::{fs, path::PathBuf};

fn folder() -> PathBuf {
    PathBuf::from(env!("CARGO_MANIFEST_DIR")).join("../../crates/test_dilution")
}

fn data(name: &str) -> Vec<u8> {
    fs::read(folder().join("data").join(name)).unwrap()
}

/// The files of the run whose title is this: table, index and input.
fn files(title: &str) -> [&str; 3] {
    match title {
        "k11_wrong.idx" => ["k11.dbf", "k11_wrong.idx", "k11_01.in"],
        "shp_comma.dbf" | "shp_point.dbf" => [title, "shp_comma.idx", "k11_01.in"],
        _ => ["k11.dbf", "k11.idx", title],
    }
}

#[test]
fn sheets() {
    let expected = fs::read_to_string(folder().join("stdout")).unwrap();
    let mut lines_held = 0;
    for run in expected.split("== ").skip(1) {
        let (title, lines) = run.split_once('\n').unwrap();
        let [table, index, input] = files(title);
        let (table, index) = (data(table), data(index));
        // a number alone refuses the whole sheet, or its input
        if !lines.contains(' ') {
            continue;
        }
        let numbers: Vec<u64> = String::from_utf8(data(input))
            .unwrap()
            .lines()
            .map(|line| line.parse().unwrap())
            .collect();
        let asked = Dilution {
            barcode_field: numbers[0] as u32,
            concentration_field: numbers[1] as u32,
            target: numbers[2],
            final_volume: numbers[3],
        };
        for line in lines.lines() {
            let words: Vec<&str> = line.split(' ').collect();
            let said: Vec<u32> = words[1..].iter().map(|w| w.parse().unwrap()).collect();
            let due = match said[..] {
                [sample, diluent] => Ok((sample, diluent)),
                [refusal] => Err(refusal),
                _ => panic!("{line}"),
            };
            let barcode = words[0].as_bytes();
            let got = Index::over(&index).dilute(&Table::new(&table).unwrap(), barcode, &asked);
            assert_eq!(
                got.map(|v| (v.sample, v.diluent)).map_err(|r| r.code()),
                due,
                "{title} {line}"
            );
            let fields = (asked.barcode_field, asked.concentration_field);
            let plain = reference::dilute(
                &table,
                &index,
                fields,
                barcode,
                asked.target,
                asked.final_volume,
            );
            assert_eq!(plain, due, "{title} {line}, plain Rust");
            lines_held += 1;
        }
    }
    assert_eq!(lines_held, 8 * 13 + 4 + 4);
}
