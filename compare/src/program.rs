//! The programs that read a farm file, or two matrices, at their standard input:
//! all that they print, against what the judge says.

use crate::farm::described;
use crate::inputs::{self, Boxed, FarmFile, Rng, Volume, bytes_of};
use crate::ops;
use crate::reader::{self, LARGEST};
use crate::trial::Trial;
use std::fs::{self, File};
use std::io::{self, Seek, Write};
use std::path::{Path, PathBuf};
use std::process::{Child, ChildStdin, Command, Stdio};
use std::sync::LazyLock;

pub struct Program {
    name: &'static str,
    path: PathBuf,
    /// What the judge prints and the kind of outcome, the inputs that are always
    /// tried, how others are drawn, and how one is told.
    judge: fn(&[u8]) -> (Vec<u8>, usize),
    fixed: &'static LazyLock<Vec<Vec<u8>>>,
    drawn: fn(&mut Rng) -> Vec<u8>,
    described: fn(&[u8]) -> String,
    /// What is said where there is no such program.
    missing: Option<String>,
}

/// The lines of a farm file, and 0 or the number of its refusal.
fn judged(file: &[u8], lines: String) -> (Vec<u8>, usize) {
    let status = reader::farm_file(file, &mut [0; reader::BOXES], &mut 0);
    (lines.into_bytes(), status as usize)
}

impl Program {
    pub fn farm_file(path: PathBuf) -> Program {
        Program {
            name: "program farm_file",
            missing: missing(&path, "FARM_FILE"),
            path,
            judge: |file| judged(file, reader::lines(file)),
            fixed: &FIXED,
            drawn: |rng| drawn_file(rng).bytes,
            described,
        }
    }

    pub fn explain(path: PathBuf) -> Program {
        Program {
            name: "program explain",
            missing: missing(&path, "EXPLAIN"),
            judge: |file| judged(file, reader::explained(file)),
            fixed: &EXPLAINED,
            drawn: |rng| drawn_to_explain(rng).bytes,
            ..Program::farm_file(path)
        }
    }

    pub fn camera_view(path: PathBuf) -> Program {
        Program {
            name: "program camera_view",
            missing: missing(&path, "CAMERA_VIEW"),
            path,
            judge: ops::seen_bytes,
            fixed: &MATRICES,
            drawn: |rng| {
                let (view, projection) = inputs::two_matrices(rng);
                bytes_of(&[view, projection].concat())
            },
            described: |given| format!("{} bytes {given:?}", given.len()),
        }
    }

    fn draw(&self, case: u64, mut rng: Rng) -> Vec<u8> {
        self.fixed.get(case as usize).cloned().unwrap_or_else(|| (self.drawn)(&mut rng))
    }

    /// What is given, and what the program prints for it.
    fn made(&self, case: u64, rng: Rng) -> (Vec<u8>, Result<Vec<u8>, String>) {
        let given = self.draw(case, rng);
        let printed = if given.len() == ENDLESS {
            self.given_without_end(&given)
        } else if case.is_multiple_of(4) {
            self.given_as_a_file(&given)
        } else {
            self.given_in_pieces(&given, case)
        };
        (given, printed.unwrap_or_else(|error| Err(error.to_string())))
    }

    fn start(&self, input: Stdio) -> io::Result<Child> {
        Command::new(&self.path).stdin(input).stdout(Stdio::piped()).stderr(Stdio::piped()).spawn()
    }

    /// As in `program < file`.
    fn given_as_a_file(&self, bytes: &[u8]) -> io::Result<Result<Vec<u8>, String>> {
        let mut file = unnamed_file()?;
        file.write_all(bytes)?;
        file.rewind()?;
        printed(self.start(file.into())?)
    }

    /// Through a pipe, whole or in pieces.
    fn given_in_pieces(&self, bytes: &[u8], case: u64) -> io::Result<Result<Vec<u8>, String>> {
        let mut child = self.start(Stdio::piped())?;
        let mut input = child.stdin.take().expect("it is piped");
        let piece = match case % 4 {
            1 => bytes.len().max(1),
            2 => bytes.len() / 3 + 1,
            // The first number comes in two pieces.
            _ => 3,
        };
        for piece in bytes.chunks(piece).take(4).chain([bytes.get(4 * piece..).unwrap_or(&[])]) {
            write(&mut input, piece)?;
            std::thread::yield_now();
        }
        drop(input);
        printed(child)
    }

    /// Much more than a file may have, and the end comes only after a look at
    /// how much of it the program keeps.
    fn given_without_end(&self, bytes: &[u8]) -> io::Result<Result<Vec<u8>, String>> {
        let mut child = self.start(Stdio::piped())?;
        let mut input = child.stdin.take().expect("it is piped");
        write(&mut input, bytes)?;
        let kept = most_memory(child.id());
        drop(input);
        let text = printed(child)?;
        Ok(match kept {
            Some(kilobytes) if kilobytes > MOST_KILOBYTES => Err(format!("it has {kilobytes} KB in memory")),
            _ => text,
        })
    }
}

/// What is said where there is no such program.
fn missing(path: &Path, variable: &str) -> Option<String> {
    (!path.is_file()).then(|| format!("not run: there is no program {} ({variable} names another)", path.display()))
}

/// Writes to a program, which need not read it all.
fn write(input: &mut ChildStdin, bytes: &[u8]) -> io::Result<()> {
    match input.write_all(bytes) {
        Err(error) if error.kind() != io::ErrorKind::BrokenPipe => Err(error),
        _ => Ok(()),
    }
}

/// All that a program prints until it ends, if it ends well and says nothing
/// else.
fn printed(child: Child) -> io::Result<Result<Vec<u8>, String>> {
    let output = child.wait_with_output()?;
    Ok(if output.status.success() && output.stderr.is_empty() {
        Ok(output.stdout)
    } else {
        let [out, err] = [&output.stdout, &output.stderr].map(|text| String::from_utf8_lossy(text));
        Err(format!("{out:?}, {}, {err:?}", output.status))
    })
}

/// A file that is gone when it is closed.
fn unnamed_file() -> io::Result<File> {
    let name = format!("farm_file.{}.{:?}", std::process::id(), std::thread::current().id());
    let path = std::env::temp_dir().join(name);
    let file = File::options().read(true).write(true).create(true).truncate(true).open(&path)?;
    fs::remove_file(path)?;
    Ok(file)
}

/// The most kilobytes that a running program has had in memory.
fn most_memory(id: u32) -> Option<u64> {
    let status = fs::read_to_string(format!("/proc/{id}/status")).ok()?;
    let line = status.lines().find(|line| line.starts_with("VmHWM:"))?;
    line.split_whitespace().nth(1)?.parse().ok()
}

/// The input whose end is held back, and how much of it may be in memory.
const ENDLESS: usize = 64 << 20;
const MOST_KILOBYTES: u64 = 16 << 10;

/// Files that are always tried.
static FIXED: LazyLock<Vec<Vec<u8>>> = LazyLock::new(|| {
    let notable = inputs::notable_files().into_iter().map(|file| file.bytes).collect();
    // A well-formed file goes on and on.
    let good = inputs::well_formed(&mut Rng::at(1, 0), 5, true);
    let longer = [LARGEST + 1, 4 << 20, (7 << 20) + 1, ENDLESS].map(|size| {
        let mut file = good.clone();
        file.fill_to(&mut Rng::at(1, 1), size);
        file.bytes
    });
    [notable, inputs::large_files(), inputs::truncated_files(), longer.into()].concat()
});

fn drawn_file(rng: &mut Rng) -> FarmFile {
    let mut file = FarmFile::default();
    inputs::farm_file(rng, &mut file);
    file
}

/// A file of one box.
fn of_one((volume, b): &(Volume, Boxed)) -> FarmFile {
    let mut file = FarmFile::default();
    file.begin(2);
    file.put(0, &bytes_of(volume.numbers()));
    file.put(1, &bytes_of(b));
    file
}

/// Any file, or a block that the filed verdict and the exact one may part on.
pub fn drawn_to_explain(rng: &mut Rng) -> FarmFile {
    if rng.once_in(2) { drawn_file(rng) } else { of_one(&inputs::exact_box(rng)) }
}

/// Files that are always explained: the same, those on which the two verdicts
/// part, and boxes behind each plane.
pub fn explained_files() -> Vec<Vec<u8>> {
    let asked = ops::parted().into_iter().chain(ops::asked_to_explain());
    FIXED.iter().filter(|file| file.len() <= 1 << 20).cloned().chain(asked.map(|asked| of_one(&asked).bytes)).collect()
}

static EXPLAINED: LazyLock<Vec<Vec<u8>>> = LazyLock::new(explained_files);

/// Matrices that are always given: too few bytes and too many, a view, one without
/// an inverse, one that is not finite.
static MATRICES: LazyLock<Vec<Vec<u8>>> = LazyLock::new(|| {
    let good = bytes_of(&ops::two_matrices_seen());
    let lengths = [0, 1, 7, 8, 128, 248, 255, 256, 257, 264, 512, 1 << 16, 4 << 20, ENDLESS];
    let cut = lengths.map(|size| good.iter().copied().cycle().take(size).collect());
    let odd = [0.0, f64::NAN, f64::INFINITY, 1e308].map(|x| bytes_of(&[x; 32]));
    cut.into_iter().chain(odd).collect()
});

/// How many are drawn besides, at most.
const DRAWN: u64 = 3000;

impl Trial for Program {
    fn name(&self) -> &'static str {
        self.name
    }

    fn note(&self) -> Option<&str> {
        self.missing.as_deref()
    }

    fn cases(&self, count: u64) -> u64 {
        if self.missing.is_some() { 0 } else { self.fixed.len() as u64 + count.min(DRAWN) }
    }

    fn agree(&self, case: u64, rng: Rng) -> Option<usize> {
        let (given, printed) = self.made(case, rng);
        let (expected, outcome) = (self.judge)(&given);
        (printed == Ok(expected)).then_some(outcome)
    }

    fn describe(&self, case: u64, rng: Rng) -> String {
        let (given, printed) = self.made(case, rng);
        let text = |bytes: &[u8]| String::from_utf8_lossy(bytes).into_owned();
        let expected = text(&(self.judge)(&given).0);
        let printed = printed.map(|bytes| text(&bytes));
        format!("{}\n      judge {expected:?}\n      ours  {printed:?}", (self.described)(&given))
    }
}

#[cfg(test)]
mod tests {
    use super::*;

    /// Programs that are no reader of farm files, found out by a few files.
    #[test]
    fn other_programs_are_found_out() {
        for path in ["/bin/true", "/bin/false", "/bin/cat"] {
            let program = Program::farm_file(path.into());
            let few = FIXED.iter().position(|file| file.len() == LARGEST + 1).expect("one is too large") as u64;
            assert_eq!(program.compare(0..few, 1).differences, few, "{path}");
        }
        for path in ["/bin/true", "/bin/false", "/bin/cat"] {
            let program = Program::camera_view(path.into());
            let few = MATRICES.iter().position(|given| given.len() > 1 << 16).expect("one is large") as u64;
            assert_eq!(program.compare(0..few, 1).differences, few, "{path}");
        }
        assert!(Program::explain("/no/such/program".into()).cases(100) == 0);
    }
}
