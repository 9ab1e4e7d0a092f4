//! What has been compared, and what was found different.
use std::fmt::{Debug, Write};

#[derive(Clone, Copy)]
pub enum Call {
    TableCheck,
    TableShape,
    Fields,
    Walk,
    WalkLive,
    TableLayOut,
    TableAppend,
    TableSetDate,
    TableExtent,
    ReadNumber,
    ReadDate,
    ReadLogical,
    TextPart,
    NumberRead,
    NumberWrite,
    IndexFresh,
    IndexAudit,
    IndexLookup,
    IndexInsert,
    IndexRemove,
    IndexRecords,
    Match,
    NdxAudit,
    NdxLookup,
    Dilute,
}

/// Each call's name and every answer that the documents let it give.
const CALLS: [(&str, &[u32]); 25] = [
    ("gl_table_check", &[0, 1, 2, 3, 4, 5, 6, 7, 8, 9, 10]),
    ("gl_table_shape", &[0, 1, 2, 3, 4, 5, 6, 7, 8, 9, 10]),
    ("gl_fields", &[0, 1, 2, 3, 4, 5, 6, 7, 8, 9, 10, 14]),
    ("gl_walk", &[0, 1, 2, 3, 4, 5, 6, 7, 8, 9, 10, 15, 258]),
    ("gl_walk_live", &[0, 1, 2, 3, 4, 5, 6, 7, 8, 9, 10, 15, 258]),
    ("gl_table_lay_out", &[0, 3, 4, 6, 7, 9, 30]),
    (
        "gl_table_append",
        &[0, 1, 2, 3, 4, 5, 6, 7, 8, 9, 10, 15, 16, 17, 18, 20, 21, 30],
    ),
    ("gl_table_set_date", &[0, 1, 2, 3, 4, 5, 6, 7, 8, 9, 10]),
    ("gl_table_extent", &[0, 1, 2, 3, 4, 5, 6, 7, 8, 9, 10]),
    (
        "gl_read_number",
        &[
            0, 1, 2, 3, 4, 5, 6, 7, 8, 9, 10, 11, 12, 13, 15, 16, 17, 18, 256,
        ],
    ),
    (
        "gl_read_date",
        &[0, 1, 2, 3, 4, 5, 6, 7, 8, 9, 10, 11, 12, 13, 15, 20, 256],
    ),
    (
        "gl_read_logical",
        &[0, 1, 2, 3, 4, 5, 6, 7, 8, 9, 10, 11, 12, 13, 15, 20, 256],
    ),
    (
        "gl_text_part",
        &[
            0, 1, 2, 3, 4, 5, 6, 7, 8, 9, 10, 11, 12, 13, 15, 21, 22, 23, 256,
        ],
    ),
    ("gl_number_read", &[0, 6, 16, 17, 18, 256]),
    ("gl_number_write", &[0, 6, 18, 19]),
    ("gl_index_fresh", &[0, 24, 27, 30]),
    ("gl_index_audit", &[0, 24, 25]),
    ("gl_index_lookup", &[0, 24, 25, 27, 257]),
    ("gl_index_insert", &[0, 24, 25, 27, 28, 29, 30, 32]),
    ("gl_index_remove", &[0, 24, 25, 27, 33]),
    ("gl_index_records", &[0, 24, 25, 27, 39]),
    (
        "gl_match",
        &[0, 1, 2, 3, 4, 5, 6, 7, 8, 9, 10, 12, 13, 24, 25, 27, 31],
    ),
    ("gl_ndx_audit", &[0, 24, 25]),
    ("gl_ndx_lookup", &[0, 24, 25, 27, 257]),
    (
        "gl_dilute",
        &[
            0, 1, 2, 3, 4, 5, 6, 7, 8, 9, 10, 12, 13, 15, 16, 17, 18, 24, 25, 27, 31, 35, 36, 37,
            38,
        ],
    ),
];

/// Counters for the answers 0 to 99 and 256 to 258.
const ANSWERS: usize = 103;

pub struct Tally {
    pub seed: u64,
    pub round: u64,
    compared: [[u64; ANSWERS]; CALLS.len()],
    differences: [u64; CALLS.len()],
}

/// An input of a call, as it is shown where there was a difference.
pub enum Input<'a> {
    Bytes(&'static str, &'a [u8]),
    Number(&'static str, i64),
}

const SHOWN: u64 = 5;

impl Tally {
    pub fn new(seed: u64) -> Tally {
        Tally {
            seed,
            round: 0,
            compared: [[0; ANSWERS]; CALLS.len()],
            differences: [0; CALLS.len()],
        }
    }

    /// Holds the library's answers, and whether all lent memory is as it is due, to the plain implementation's.
    pub fn hold<T: PartialEq + Debug>(
        &mut self,
        call: Call,
        got: (u32, T),
        due: (u32, T),
        memory: bool,
        inputs: &[Input],
    ) {
        let slot = if due.0 < 100 {
            due.0
        } else {
            due.0 - 256 + 100
        };
        self.compared[call as usize][slot as usize] += 1;
        if got == due && memory {
            return;
        }
        self.differences[call as usize] += 1;
        if self.differences() <= SHOWN {
            self.show(call, &got, &due, memory, inputs);
        }
    }

    fn show<T: Debug>(
        &self,
        call: Call,
        got: &(u32, T),
        due: &(u32, T),
        memory: bool,
        inputs: &[Input],
    ) {
        println!(
            "difference: {} with --seed {} --round {}",
            CALLS[call as usize].0, self.seed, self.round
        );
        println!("  library    {got:?}");
        println!("  plain Rust {due:?}");
        if !memory {
            println!("  lent memory, or what lies beside it, is not what it should be");
        }
        for input in inputs {
            match input {
                Input::Number(name, n) => println!("  {name} {n}"),
                Input::Bytes(name, bytes) => {
                    println!("  {name}, {} bytes {}", bytes.len(), self.hex(name, bytes))
                }
            }
        }
    }

    /// Bytes in hex; many of them go to a file.
    fn hex(&self, name: &str, bytes: &[u8]) -> String {
        if bytes.len() > 2048 {
            let file = std::env::temp_dir()
                .join(format!("gatherloom-{}-{}-{name}", self.seed, self.round));
            return match std::fs::write(&file, bytes) {
                Ok(()) => format!("in {}", file.display()),
                Err(e) => format!("(not written: {e})"),
            };
        }
        bytes.iter().fold(String::new(), |mut hex, b| {
            let _ = write!(hex, "{b:02x}");
            hex
        })
    }

    pub fn differences(&self) -> u64 {
        self.differences.iter().sum()
    }

    pub fn compared(&self) -> u64 {
        self.compared.iter().flatten().sum()
    }

    /// A line for each call: how often it was compared, by answer, and which answers it never gave.
    pub fn report(&self) {
        println!("| Call | Compared | Different | Answers, with how often each was given |");
        println!("|---|---:|---:|---|");
        for (i, (name, answers)) in CALLS.iter().enumerate() {
            let mut given = String::new();
            for &answer in *answers {
                let slot = if answer < 100 { answer } else { answer - 156 };
                let _ = write!(given, "{answer}: {}, ", self.compared[i][slot as usize]);
            }
            println!(
                "| {name} | {} | {} | {} |",
                self.compared[i].iter().sum::<u64>(),
                self.differences[i],
                given.trim_end_matches(", ")
            );
        }
    }
}
