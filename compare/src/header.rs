//! The C header, held to the judges: which functions there are, the refusals
//! of each in their order, the limits that it names.

use crate::farm::FarmFiles;
use crate::inputs::MOST_RANGES;
use crate::judge::{FEWEST_PLANES, MOST_PLANES, NO_PLACE};
use crate::ops;
use crate::trial::Trial;
use std::collections::BTreeMap;
use std::fs;
use std::path::Path;

fn header() -> String {
    let path = Path::new(env!("CARGO_MANIFEST_DIR")).join("../include/gf.h");
    fs::read_to_string(path).expect("the header is in the project")
}

/// The functions that the header declares, each with the comment above it, on
/// one line.
fn declared(header: &str) -> Vec<(&str, String)> {
    let mut all = vec![];
    for part in header.split("/*").skip(1) {
        let (comment, code) = part.split_once("*/").expect("a comment ends");
        let comment = comment.replace("\n *", "");
        let names = code.split("gf_").skip(1).filter_map(|rest| rest.split_once('(')).map(|(name, _)| name);
        all.extend(names.map(|name| (name, comment.clone())));
    }
    all
}

/// The numbers behind "Refuses:" in a comment; none where it has no such word.
fn refuses(comment: &str) -> Vec<u32> {
    let Some((_, rest)) = comment.split_once("Refuses: ") else {
        return vec![];
    };
    let (list, _) = rest.split_once('.').expect("a sentence ends");
    list.split(", ").map(|number| number.parse().expect("a number")).collect()
}

#[test]
fn each_function_refuses_in_the_order_of_the_header() {
    let farm = FarmFiles::of_archive();
    let mut judges: BTreeMap<&str, Vec<u32>> = ops::all().iter().map(|op| (op.name(), op.refusals())).collect();
    judges.insert(farm.name(), farm.refusals());
    for (name, comment) in declared(&header()) {
        let judge = judges.remove(name).unwrap_or_else(|| panic!("gf_{name} has no judge, or is declared twice"));
        assert_eq!(refuses(&comment), judge, "gf_{name}: the header's order, and the judge's");
    }
    assert!(judges.is_empty(), "not in the header: {judges:?}");
}

#[test]
fn the_header_names_the_limits() {
    let header = header();
    let limits =
        [("GF_FEWEST_PLANES", FEWEST_PLANES), ("GF_MOST_PLANES", MOST_PLANES), ("GF_MOST_RANGES", MOST_RANGES)];
    for (name, limit) in limits {
        assert!(header.contains(&format!("#define {name} {limit}\n")), "{name} is {limit}");
    }
    assert!(header.contains(&format!("#define GF_NO_PLACE {NO_PLACE}u\n")), "no place is {NO_PLACE}");
}
