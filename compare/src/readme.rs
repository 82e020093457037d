//! README's order of reading held to what the files of `specs/` stand on.

use std::collections::BTreeSet;
use std::fs;
use std::path::Path;

fn read(path: &str) -> String {
    let root = Path::new(env!("CARGO_MANIFEST_DIR")).join("..");
    fs::read_to_string(root.join(path)).unwrap_or_else(|error| panic!("{path}: {error}"))
}

/// The files of a crate's definitions but for what may be left out.
fn definitions(of: &str) -> BTreeSet<String> {
    let folder = Path::new(env!("CARGO_MANIFEST_DIR")).join("../crates").join(of).join("specs");
    let names = fs::read_dir(folder).into_iter().flatten().map(|entry| entry.expect("it is read").path());
    let files = names.filter(|path| path.extension().is_some_and(|end| end == "antt"));
    let stems = files.map(|path| path.file_stem().expect("it has a name").to_string_lossy().into_owned());
    stems.filter(|name| name != "Lib" && name != "Steps").collect()
}

/// The crate and the file of definitions that a line brings in.
fn brought(line: &str) -> Option<(String, String)> {
    let (of, rest) = line.strip_prefix("use Rattle.")?.split_once(".specs.")?;
    let file = rest.split('.').next()?;
    (of != "std" && file != "declared" && file != "Steps").then(|| (of.into(), file.into()))
}

#[test]
fn every_file_is_listed_behind_what_it_stands_on() {
    let readme = read("README.md");
    let (_, table) = readme.split_once("## What to read").expect("it has the section");
    let (table, _) = table.split_once("Who wants to know").expect("a sentence follows the table");
    let mut seen = BTreeSet::new();
    for row in table.lines().filter_map(|line| line.strip_prefix("| ")).skip(1) {
        let (crates, files) = row.split_once(" | ").expect("a row has cells");
        let crates: Vec<&str> = crates.split(", ").collect();
        for word in files.split(|c: char| !c.is_alphanumeric()) {
            for of in crates.iter().filter(|of| definitions(of).contains(word)) {
                for below in read(&format!("crates/{of}/specs/{word}.antt")).lines().filter_map(brought) {
                    assert!(seen.contains(&below), "{of}/{word} stands on {}/{}", below.0, below.1);
                }
                seen.insert((of.to_string(), word.to_string()));
            }
        }
        for of in crates {
            for file in definitions(of) {
                assert!(seen.contains(&(of.to_string(), file.clone())), "{of}/{file} is not listed");
            }
        }
    }
    assert!(seen.len() > 60, "{} files", seen.len());
}
