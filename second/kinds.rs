//! How often each kind of line, count of repaired places, refusal, class and ending occurs in the listings of recordings, so that none goes
//! untested; and packets behind each kind of block.

use crate::listing::{self, Scribe};
use std::collections::BTreeMap;

const LINES: [&str; 8] = ["P", "R", "B clean", "B repaired", "B beyond repair", "L", "E", "X"];
const PLACES: [&str; 16] = [
    "B 1", "B 2", "B 3", "B 4", "B 5", "B 6", "B 7", "B 8", "B 9", "B 10", "B 11", "B 12", "B 13", "B 14", "B 15", "B 16",
];
const DELIVERED: [&str; 3] = ["P behind B clean", "P behind B repaired", "P behind B beyond repair"];
const REFUSALS: [&str; 9] = ["R 1", "R 2", "R 3", "R 4", "R 5", "R 6", "R 12", "R 7", "R 8"];
const CLASSES: [&str; 5] = ["class S", "class A", "class M", "class D", "class F"];
/// The stream limit is not among them: no test hands in 4 GiB.
const ENDINGS: [&str; 9] = [
    "well",
    "empty input",
    "unknown first byte",
    "wrong first byte of a mark",
    "wrong second byte of a mark",
    "end inside a mark",
    "end before a length",
    "end inside a length",
    "end inside a record",
];

fn add_kinds(recording: &[u8], counts: &mut BTreeMap<String, usize>) {
    let mut scribe = Scribe::new();
    scribe.consume(recording);
    let text = String::from_utf8(listing::listing(recording)).unwrap();
    let mut kinds = vec![scribe.ending().to_string()];
    let mut block = "none";
    for line in text.lines() {
        match line.as_bytes()[0] {
            b'P' => kinds.extend(["P".to_string(), format!("class {}", &line[line.len() - 1..]), format!("P behind {block}")]),
            b'R' => kinds.extend(["R".to_string(), line.split(' ').take(2).collect::<Vec<_>>().join(" ")]),
            b'B' => {
                block = match line {
                    "B 0" => "B clean",
                    "B X" => "B beyond repair",
                    _ => "B repaired",
                };
                kinds.extend([block.to_string(), line.to_string()]);
            }
            _ => kinds.push(line[..1].to_string()),
        }
    }
    for kind in kinds {
        *counts.entry(kind).or_default() += 1;
    }
}

/// Prints the counts; the status is 1 where something never occurred.
pub fn show(files: &[&str]) -> i32 {
    let mut counts = BTreeMap::new();
    for file in files {
        add_kinds(&std::fs::read(file).expect(file), &mut counts);
    }
    let mut missing = 0;
    for kinds in [&LINES[..], &PLACES, &DELIVERED, &REFUSALS, &CLASSES, &ENDINGS] {
        let row: Vec<String> = kinds.iter().map(|k| format!("{k}: {}", counts.get(*k).unwrap_or(&0))).collect();
        println!("{}", row.join(", "));
        missing += kinds.iter().filter(|k| !counts.contains_key(**k)).count();
    }
    println!("{} recordings, {missing} kinds missing", files.len());
    (missing > 0) as i32
}
