//! Compares the exported functions with their judges, times them, and
//! records the judges' answers.
//!
//!     compare run [COUNT] [FUNCTION..]
//!     compare grid [COUNT] [KIND..]
//!     compare farm [COUNT]
//!     compare bench [FUNCTION..]
//!     compare survey [FARMS]
//!     compare record [FILE]
//!     compare record-farm CRATES
//!     compare lines
//!     compare explained

mod bench;
mod call;
mod desk;
mod exact;
mod exported;
mod farm;
mod grid;
#[cfg(test)]
mod header;
mod inputs;
mod judge;
mod lent;
mod op;
mod ops;
#[cfg(test)]
mod planted;
mod program;
mod reader;
#[cfg(test)]
mod readme;
mod record;
mod run;
mod rust;
mod scalar;
mod signs;
#[cfg(test)]
mod slips;
mod survey;
mod trial;
mod words;

use farm::FarmFiles;
use op::Timed;
use program::Program;
use std::fs::{self, File};
use std::io::{self, BufWriter, Read};
use std::path::Path;
use std::process::ExitCode;
use std::{env, iter};
use trial::Trial;

/// Cases for each function where no count is given, and farm files.
const COUNT: u64 = 2_000_000;
const FILES: u64 = 10_000_000;

/// Farms of a survey where no number is given.
const FARMS: u64 = 20_000;

fn main() -> ExitCode {
    let words: Vec<String> = env::args().skip(1).collect();
    let words: Vec<&str> = words.iter().map(String::as_str).collect();
    let done = match words[..] {
        ["record"] => recorded(None),
        ["record", path] => recorded(Some(path)),
        ["record", ..] => Err(String::from("record [FILE]")),
        ["record-farm", folder] => recorded_files(Path::new(folder)),
        ["record-farm", ..] => Err(String::from("record-farm CRATES")),
        ["lines"] => lines(reader::lines),
        ["explained"] => lines(reader::explained),
        ["bench", ref names @ ..] => chosen(names).map(|functions| {
            bench::bench(&functions);
            true
        }),
        ["run", ref rest @ ..] => compared(rest),
        ["grid", ref rest @ ..] => checked(rest),
        ["farm", ref rest @ ..] => read(rest),
        ["survey", ref rest @ ..] => surveyed(rest),
        _ => Err(String::from("run | grid | farm | bench | survey | record | record-farm | lines | explained")),
    };
    match done {
        Ok(true) => ExitCode::SUCCESS,
        Ok(false) => ExitCode::FAILURE,
        Err(message) => {
            eprintln!("compare: {message}");
            ExitCode::from(2)
        }
    }
}

fn compared(words: &[&str]) -> Result<bool, String> {
    let (count, names) = counted(words, COUNT)?;
    let functions = chosen(names)?;
    run::name_unknown(&all());
    Ok(run::run(functions.iter().map(|function| function.as_ref() as &dyn Trial), count, seed()?))
}

fn checked(words: &[&str]) -> Result<bool, String> {
    let (count, kinds) = counted(words, COUNT)?;
    let ops = ops::all();
    let mut trials = grid::all(&ops);
    if let Some(unknown) = kinds.iter().find(|kind| trials.iter().all(|trial| trial.name() != **kind)) {
        return Err(format!("no kind {unknown}"));
    }
    trials.retain(|trial| kinds.is_empty() || kinds.contains(&trial.name()));
    Ok(run::run(trials.iter().map(|trial| trial as &dyn Trial), count, seed()?))
}

/// Farm files by the archive's reader and by the programs.
fn read(words: &[&str]) -> Result<bool, String> {
    let (count, []) = counted(words, FILES)? else {
        return Err(String::from("farm [COUNT]"));
    };
    let program = env::var_os("FARM_FILE").ok_or("FARM_FILE names the program")?;
    let explain = env::var_os("EXPLAIN").ok_or("EXPLAIN names the program")?;
    let camera_view = env::var_os("CAMERA_VIEW").ok_or("CAMERA_VIEW names the program")?;
    let trials: [&dyn Trial; 4] = [
        &FarmFiles::of_archive(),
        &Program::farm_file(program.into()),
        &Program::explain(explain.into()),
        &Program::camera_view(camera_view.into()),
    ];
    Ok(run::run(trials.into_iter(), count, seed()?))
}

/// A season's portfolio, timed and compared.
fn surveyed(words: &[&str]) -> Result<bool, String> {
    let (farms, []) = counted(words, FARMS)? else {
        return Err(String::from("survey [FARMS]"));
    };
    survey::survey(&ops::all(), farms, seed()?)
}

/// The count that may come first, and the words after it.
fn counted<'a, 'b>(words: &'a [&'b str], usual: u64) -> Result<(u64, &'a [&'b str]), String> {
    match words {
        [first, rest @ ..] if first.starts_with(|c: char| c.is_ascii_digit()) => {
            Ok((first.parse().map_err(|_| "COUNT is a whole number")?, rest))
        }
        rest => Ok((usual, rest)),
    }
}

fn seed() -> Result<u64, String> {
    env::var("SEED").map_or(Ok(1), |seed| seed.parse().map_err(|_| String::from("SEED is a whole number")))
}

/// All exported functions.
fn all() -> Vec<Box<dyn Timed>> {
    let ops = ops::all().into_iter().map(|op| op as Box<dyn Timed>);
    ops.chain(iter::once(Box::new(FarmFiles::of_archive()) as Box<dyn Timed>)).collect()
}

/// The functions of these names, or all.
fn chosen(names: &[&str]) -> Result<Vec<Box<dyn Timed>>, String> {
    let mut functions = all();
    if let Some(unknown) = names.iter().find(|name| functions.iter().all(|function| function.name() != **name)) {
        return Err(format!("no function {unknown}"));
    }
    functions.retain(|function| names.is_empty() || names.contains(&function.name()));
    Ok(functions)
}

fn recorded(path: Option<&str>) -> Result<bool, String> {
    let to: io::Result<Box<dyn io::Write>> = match path {
        Some(path) => File::create(path).map(|file| Box::new(BufWriter::new(file)) as _),
        None => Ok(Box::new(io::stdout().lock())),
    };
    let written = to.and_then(|mut to| record::write(&ops::all(), &mut to));
    let vectors = written.map_err(|error| format!("{}: {error}", path.unwrap_or("standard output")))?;
    eprintln!("{vectors} vectors");
    Ok(true)
}

/// The files and lines of the program that replays farm files, and of the
/// further runs of those that read one.
fn recorded_files(crates: &Path) -> Result<bool, String> {
    let replayed = crates.join("replay_farm");
    let create = |name: &str| File::create(replayed.join(name)).map(BufWriter::new);
    let written = create("stdin").and_then(|mut files| record::write_files(&mut files, &mut create("stdout")?));
    let files = written.map_err(|error| format!("{}: {error}", replayed.display()))?;
    for (name, file, lines) in record::runs() {
        let folder = crates.join(name);
        let written = fs::write(folder.join("stdin"), file).and_then(|()| fs::write(folder.join("stdout"), lines));
        written.map_err(|error| format!("{}: {error}", folder.display()))?;
    }
    eprintln!("{files} farm files");
    Ok(true)
}

/// The judge's lines for the farm file at standard input.
fn lines(of: fn(&[u8]) -> String) -> Result<bool, String> {
    let mut file = vec![];
    io::stdin().lock().read_to_end(&mut file).map_err(|error| format!("standard input: {error}"))?;
    print!("{}", of(&file));
    Ok(true)
}
