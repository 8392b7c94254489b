//! Single lines, read and printed, and pairs of paths.

use crate::sides::Sides;
use crate::table::{Table, Unit, Work};
use crate::SEED;
use harness::interface::WORDS;
use harness::tagged::tables::{self, HOUSE};
use harness::tagged::translated::{Change, Outwards};
use harness::{tracefile, Port, Rng, Tagged};
use lcov_sys::DEFAULT_TAGS;
use oracle::Record;
use std::fmt::Write;
use std::hint::black_box;
use std::path::Path;

const FILES: usize = 500;

/// No line of the tracefile is longer when printed.
const ROOM: usize = 512;

pub fn measure(sides: &Sides) {
    let lines = tracefile::lines(&mut Rng::new(SEED), FILES);
    let paths = paths_of(&lines);
    let bytes: usize = lines.iter().map(String::len).sum();
    println!(
        "\n{} lines of {:.1} bytes on average",
        lines.len(),
        bytes as f64 / lines.len() as f64
    );
    let table = Table::new(sides, Unit::MillionsPerSecond);
    table.row(Work {
        what: "lines read",
        times: lines.len(),
        port: &|port| read(port, &lines),
        rust: &[("", &|| rust_reads(&lines))],
    });
    table.row(Work {
        what: "lines read and printed",
        times: lines.len(),
        port: &|port| print(port, &lines),
        rust: &[
            (", Rust into a new string", &|| rust_prints_anew(&lines)),
            (", Rust into a kept string", &|| rust_prints(&lines)),
        ],
    });
    if sides.has_all_calls() {
        tagged_rows(&table, &lines);
    }
    table.row(Work {
        what: "pairs of paths compared",
        times: paths.len() * paths.len(),
        port: &|port| compare(port, &paths),
        rust: &[("", &|| rust_compares(&paths))],
    });
}

/// The port reads with the default table lent, and with a house's table and its lines, beside the Rust on the default lines.
fn tagged_rows(table: &Table, lines: &[String]) {
    let default: Vec<Vec<u8>> = lines.iter().map(|line| line.as_bytes().to_vec()).collect();
    let own: Vec<Vec<u8>> = default
        .iter()
        .map(|line| Outwards(HOUSE).line(line))
        .collect();
    let house = tables::of(HOUSE);
    for (whose, tags, tagged) in [
        ("default", &DEFAULT_TAGS[..], &default),
        ("house", &house, &own),
    ] {
        table.row(Work {
            what: &format!("lines read, {whose} tags lent"),
            times: lines.len(),
            port: &|port| read_tagged(port, tags, tagged),
            rust: &[("", &|| rust_reads(lines))],
        });
        table.row(Work {
            what: &format!("lines read and printed, {whose} tags lent"),
            times: lines.len(),
            port: &|port| print_tagged(port, tags, tagged),
            rust: &[(", Rust into a kept string", &|| rust_prints(lines))],
        });
    }
}

fn paths_of(lines: &[String]) -> Vec<&str> {
    lines
        .iter()
        .filter_map(|line| line.strip_prefix("SF:"))
        .collect()
}

// ---- reading

fn rust_reads(lines: &[String]) {
    for line in lines {
        black_box(black_box(line).parse::<Record>().is_ok());
    }
}

fn read(port: &impl Port, lines: &[String]) {
    let mut answer = [0; WORDS];
    for line in lines {
        black_box(port.read_line(black_box(line.as_bytes()), &mut answer));
        black_box(&answer);
    }
}

fn read_tagged(port: &impl Tagged, tags: &[u8], lines: &[Vec<u8>]) {
    let mut answer = [0; WORDS];
    for line in lines {
        black_box(port.read_line_tagged(black_box(tags), black_box(line), &mut answer));
        black_box(&answer);
    }
}

// ---- reading and printing

fn parsed(line: &str) -> Record {
    black_box(line).parse().expect("a sound line")
}

fn rust_prints_anew(lines: &[String]) {
    for line in lines {
        black_box(parsed(line).to_string());
    }
}

fn rust_prints(lines: &[String]) {
    let mut out = String::with_capacity(ROOM);
    for line in lines {
        out.clear();
        writeln!(out, "{}", parsed(line)).expect("a string takes all");
        black_box(&out);
    }
}

fn print(port: &impl Port, lines: &[String]) {
    let mut out = [0; ROOM];
    let mut answer = [0; WORDS];
    for line in lines {
        let number = port.print_line(black_box(line.as_bytes()), &mut out, &mut answer);
        assert_eq!(number, 0, "a sound line, and room for it");
        black_box((&out, &answer));
    }
}

fn print_tagged(port: &impl Tagged, tags: &[u8], lines: &[Vec<u8>]) {
    let mut out = [0; ROOM];
    let mut answer = [0; WORDS];
    for line in lines {
        let number =
            port.print_line_tagged(black_box(tags), black_box(line), &mut out, &mut answer);
        assert_eq!(number, 0, "a sound line, and room for it");
        black_box((&out, &answer));
    }
}

// ---- paths

fn rust_compares(paths: &[&str]) {
    for a in paths {
        for b in paths {
            black_box(Path::new(black_box(a)).cmp(Path::new(black_box(b))));
        }
    }
}

fn compare(port: &impl Port, paths: &[&str]) {
    for a in paths {
        for b in paths {
            black_box(port.compare_paths(black_box(a.as_bytes()), black_box(b.as_bytes())));
        }
    }
}
