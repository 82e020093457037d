//! Assembles gf from the original files, which are read from GF_SRC and
//! never kept: each file as it is, but for the rules below. A rule that does
//! not fit the files it is given stops the build.

use std::path::{Path, PathBuf};
use std::{env, fs};

/// Where the files lie under GF_SRC.
const PLACE: &str = "crates/openusd/src/gf";

const FILES: [&str; 12] =
    ["mod", "vec", "matrix", "range", "plane", "ray", "bbox", "projection", "frustum", "camera", "rotation", "quat"];

/// Modules that `mod.rs` names and that are not carried.
const LEFT_OUT: [&str; 4] = ["color", "color_space", "dual_quat", "interval"];

fn main() {
    println!("cargo::rerun-if-env-changed=GF_SRC");
    println!("cargo::rerun-if-changed=build.rs");
    let from = PathBuf::from(env::var_os("GF_SRC").expect("GF_SRC names the original sources")).join(PLACE);
    let out = PathBuf::from(env::var_os("OUT_DIR").expect("cargo sets OUT_DIR"));
    fs::create_dir_all(out.join("gf")).expect("a folder for the assembled files");
    for file in FILES {
        let path = from.join(file).with_extension("rs");
        println!("cargo::rerun-if-changed={}", path.display());
        write(&out.join("gf").join(file).with_extension("rs"), &assembled(file, read(&path)));
    }
    write(&out.join("lib.rs"), "pub mod gf;\n");
}

/// The file's text after the rules that concern it.
fn assembled(file: &str, text: String) -> String {
    match file {
        "mod" => {
            let text = LEFT_OUT.iter().fold(text, |text, module| without_module(&text, module));
            format!("{text}\npub use frustum::screens::Screens;\n")
        }
        "plane" => with_open_fields(&text, "Plane"),
        "bbox" => with_open_fields(&text, "BBox3d"),
        "frustum" => with_screens(&with_given_rays(&with_open_fields(&text, "FrustumPlanes"))),
        _ => text,
    }
}

/// Drops the lines that declare and re-export `module`.
fn without_module(text: &str, module: &str) -> String {
    let (declared, exported) = (format!("mod {module};"), format!("pub use {module}::"));
    let dropped = |line: &&str| **line == declared || line.starts_with(&exported);
    assert_eq!(text.lines().filter(dropped).count(), 2, "mod.rs names {module} twice");
    text.lines().filter(|line| !dropped(line)).map(|line| format!("{line}\n")).collect()
}

/// Makes the fields of the struct `name` public.
fn with_open_fields(text: &str, name: &str) -> String {
    let (before, fields, after) = part(text, &format!("\npub struct {name} {{\n"), "\n}\n");
    let opened: Vec<String> = fields
        .lines()
        .map(|line| match line.trim_start() {
            field if field.starts_with("//") => line.to_string(),
            field => format!("    pub {field}"),
        })
        .collect();
    format!("{before}{}{after}", opened.join("\n"))
}

/// Adds, beside the triangle method, a copy that asks the four rays it is
/// given where the method asks its frustum.
fn with_given_rays(text: &str) -> String {
    const NAME: &str = "pub fn intersects_triangle(";
    let (before, method, after) = part(text, NAME, "\n    }\n");
    let (parameters, body) = method.split_once(')').expect("a parameter list");
    assert_eq!(body.matches("self.frustum").count(), 1, "the triangle method asks its frustum once");
    let copy = format!(
        "\n    }}\n\n    pub fn intersects_triangle_by({parameters}, rays: &[Ray; 4]){}",
        body.replace("self.frustum", "rays")
    );
    format!("{before}{method}{copy}{after}\nuse crate::PickRay as _;\n")
}

/// Adds copies of the verdicts on boxes, points and segments that ask a list
/// of planes, as long as may be, where these ask their six.
fn with_screens(text: &str) -> String {
    let methods = ["bbox", "point", "segment"].map(|of| {
        let start = format!("    pub fn intersects_{of}(");
        let (_, method, _) = part(text, &start, "\n    }\n");
        format!("{start}{method}\n    }}\n")
    });
    let functions = ["inside_mask", "segment_intersects"].map(|name| {
        let start = format!("\nfn {name}(");
        let (_, function, _) = part(text, &start, "\n}\n");
        assert_eq!(function.matches("planes: &[Plane; 6]").count(), 1, "{name} takes six planes");
        format!("{start}{}\n}}\n", function.replace("[Plane; 6]", "[Plane]"))
    });
    let functions = functions.concat().replace("ALL_PLANES", "u32::MAX >> (32 - planes.len())");
    format!(
        "{text}\npub mod screens {{\nuse super::*;\npub struct Screens<'a> {{ pub planes: &'a [Plane] }}\nimpl Screens<'_> {{\n{}}}\n{functions}}}\n",
        methods.concat()
    )
}

/// Splits `text` after its only `start` and before the next `end`.
fn part<'a>(text: &'a str, start: &str, end: &str) -> (&'a str, &'a str, &'a str) {
    assert_eq!(text.matches(start).count(), 1, "{start:?} occurs once");
    let from = text.find(start).expect("just counted") + start.len();
    let to = from + text[from..].find(end).expect("an end");
    (&text[..from], &text[from..to], &text[to..])
}

fn read(path: &Path) -> String {
    fs::read_to_string(path).unwrap_or_else(|error| panic!("{}: {error}", path.display()))
}

fn write(path: &Path, text: &str) {
    fs::write(path, text).unwrap_or_else(|error| panic!("{}: {error}", path.display()));
}
