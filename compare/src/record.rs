//! Recorded answers, for the program that replays them. README.md has their
//! form.

use crate::op::Op;
use crate::{inputs, reader};
use std::io::{self, Write};

/// The operations of each family. An operation's code is the number of its
/// family and its place there, both from 1.
#[rustfmt::skip]
const FAMILIES: [&[&str]; 11] = [
    &["sqrt", "abs", "min", "max", "narrow", "widen", "grid"],
    &[
        "product", "transpose", "inverse", "transform", "transform_affine", "transform_dir", "transform_homogeneous",
        "determinant3", "is_right_handed",
    ],
    &[
        "range_is_empty", "range_union", "range_intersection", "range_midpoint", "range_distance_squared",
        "range_transformed", "range_corners",
    ],
    &["bbox_combine", "bbox_transform", "bbox_volume", "bbox_aligned_range", "bbox_centroid", "bbox_combine_group"],
    &[
        "plane_new", "plane_from_points", "plane_from_equation", "plane_distance", "plane_on_positive_side",
        "plane_transformed",
    ],
    &["ray_point", "ray_transformed", "ray_intersect_plane", "ray_intersect_triangle"],
    &[
        "projection_matrix", "projection_from_matrix", "camera_set_from_view_and_projection",
        "volume_from_view_and_projection",
    ],
    &[
        "intersects_point", "intersects_segment", "intersects_triangle", "intersects_bbox", "intersects_view_volume",
        "exact_bbox",
    ],
    &["whole_intersects_segment", "whole_intersects_bbox"],
    &["range_nearest", "blocking_plane", "blocking_planes"],
    &["range_within", "intersects_bboxes", "rays_intersect_triangle"],
];

/// In the place of a family: a name follows.
const NAME: u8 = 255;

/// Writes the records of all operations, each operation's with its name behind
/// them, and tells how many there are.
pub fn write(ops: &[Box<dyn Op>], to: &mut dyn Write) -> io::Result<usize> {
    let mut written = 0;
    for (family, names) in (1..).zip(FAMILIES) {
        for (place, name) in (1..).zip(names) {
            let op = ops.iter().find(|op| op.name() == *name).expect("there is one");
            for record in op.records() {
                to.write_all(&record.bytes([family, place]))?;
                written += 1;
            }
            to.write_all(&[NAME, name.len() as u8, 0, 0, 0, 0, 0, 0])?;
            to.write_all(name.as_bytes())?;
        }
    }
    to.flush()?;
    Ok(written)
}

/// Writes the notable farm files, each after its size, and what is to be
/// printed for them, and tells how many there are.
pub fn write_files(files: &mut dyn Write, lines: &mut dyn Write) -> io::Result<usize> {
    let notable = inputs::notable_files();
    for (place, file) in notable.iter().enumerate() {
        files.write_all(&(file.bytes.len() as u32).to_le_bytes())?;
        files.write_all(&file.bytes)?;
        write!(lines, "file {}\n{}{}", place + 1, reader::lines(&file.bytes), reader::explained(&file.bytes))?;
    }
    files.flush()?;
    lines.flush()?;
    Ok(notable.len())
}

/// Further runs of the programs that read one farm file: the name of each, its
/// file, and what it is to print.
pub fn runs() -> Vec<(String, Vec<u8>, String)> {
    let programs: [(&str, fn(&[u8]) -> String); 2] = [("farm_file", reader::lines), ("explain", reader::explained)];
    let files = ["largest", "refused"].into_iter().zip(inputs::largest_and_refused());
    files
        .flat_map(|(run, file)| programs.map(|(program, of)| (format!("{program}_{run}"), file.clone(), of(&file))))
        .collect()
}

#[cfg(test)]
mod tests {
    use super::*;
    use crate::judge::NO_PLACE;
    use crate::ops;
    use std::collections::{BTreeMap, BTreeSet};
    use std::ffi::OsString;
    use std::fs;
    use std::path::{Path, PathBuf};
    use std::process::Command;

    #[test]
    fn each_function_has_a_code_of_its_own() {
        let mut names: Vec<&str> = ops::all().iter().map(|op| op.name()).collect();
        let mut coded = FAMILIES.concat();
        (names.sort_unstable(), coded.sort_unstable());
        assert_eq!(names, coded);
    }

    /// Of each call every status that it has, and both a yes and a no.
    #[test]
    fn every_outcome_is_recorded() {
        for op in ops::all() {
            let records = op.records();
            let statuses: BTreeSet<u32> = records.iter().map(|record| record.status).collect();
            let refusals: &[u32] = match op.name() {
                "bbox_combine_group" => &[3, 11],
                "grid" => &[7],
                name if name.starts_with("bbox_") => &[3],
                "projection_matrix" => &[3],
                "intersects_point" | "intersects_segment" | "intersects_triangle" => &[1, 12, 13],
                "intersects_bbox" | "blocking_planes" | "intersects_bboxes" => &[1, 3, 12, 13],
                "intersects_view_volume" => &[3, 13],
                "inverse" | "plane_transformed" => &[4],
                "ray_intersect_plane" | "ray_intersect_triangle" => &[5],
                "projection_from_matrix" => &[6],
                "camera_set_from_view_and_projection" => &[4, 6, 8],
                "volume_from_view_and_projection" => &[4, 8],
                "range_nearest" | "range_within" | "rays_intersect_triangle" => &[1],
                "whole_intersects_segment" | "whole_intersects_bbox" => &[1, 7, 12],
                "blocking_plane" => &[1, 12, 13, 14],
                "exact_bbox" => &[1, 3, 7, 12, 13],
                _ => &[],
            };
            assert_eq!(statuses, refusals.iter().copied().chain([0]).collect(), "{}", op.name());
            let is_verdict = ["is_right_handed", "range_is_empty", "plane_on_positive_side", "exact_bbox"];
            let lists = op.name() == "intersects_bboxes";
            if is_verdict.contains(&op.name()) || !lists && op.name().contains("intersects_") {
                let answers: BTreeSet<&[u64]> = records.iter().map(|record| &record.result[..]).collect();
                assert!([[0], [1]].iter().all(|word| answers.contains(&word[..])), "{}", op.name());
            }
        }
    }

    /// A place and none, of the nearest, of a list and of a hidden segment.
    #[test]
    fn a_place_and_none_are_recorded() {
        let no_place = u64::from(NO_PLACE);
        for (name, none) in [("range_nearest", no_place), ("range_within", 0), ("blocking_plane", no_place)] {
            let records = ops::all().iter().find(|op| op.name() == name).expect("there is one").records();
            let answered = records.iter().filter(|record| record.status == 0);
            let (nothing, places): (Vec<_>, Vec<_>) = answered.partition(|record| record.result[0] == none);
            assert!(nothing.len() >= 5 && places.len() >= 20, "{name}");
        }
    }

    /// A file of the project.
    fn project(path: &str) -> PathBuf {
        Path::new(env!("CARGO_MANIFEST_DIR")).join("..").join(path)
    }

    fn kept(path: &str) -> Vec<u8> {
        fs::read(project(path)).expect("it is kept in the project")
    }

    /// The files of a crate's source, each with its text.
    fn source(of: &str) -> BTreeMap<OsString, Vec<u8>> {
        let files = fs::read_dir(project(&format!("crates/{of}/src"))).expect("the crate has a source");
        let paths = files.map(|entry| entry.expect("it is read").path());
        paths.map(|path| (path.file_name().expect("it has a name").into(), fs::read(path).expect("it is a file"))).collect()
    }

    /// All of it is read in the gate.
    #[test]
    fn recorded_files_are_few_and_kept() {
        let (mut files, mut lines) = (vec![], vec![]);
        write_files(&mut files, &mut lines).expect("memory is written to");
        assert!(files.len() < 500_000, "{} bytes", files.len());
        assert!(files == kept("crates/replay_farm/stdin") && lines == kept("crates/replay_farm/stdout"));
    }

    /// Each has a copy of the source of its program, so that it is that program
    /// which is run, and both ends of the limit are among the files.
    #[test]
    fn further_runs_are_of_the_programs() {
        for (name, file, lines) in runs() {
            assert!(kept(&format!("crates/{name}/stdin")) == file, "{name}");
            assert_eq!(kept(&format!("crates/{name}/stdout")), lines.as_bytes(), "{name}");
            assert!(file.len() > 3000 && (lines == "refused 1\n") == name.ends_with("_refused"), "{name}");
            let (program, _) = name.rsplit_once('_').expect("it has two words");
            assert!(source(&name) == source(program), "{name}");
        }
    }

    /// The program's own file is the example orchard's, and the page about
    /// farm files shows its first bytes.
    #[test]
    fn the_example_orchard_is_kept_and_shown() {
        let file = kept("crates/farm_file/stdin");
        assert_eq!(reader::lines(&file).as_bytes(), kept("crates/farm_file/stdout"));
        let made = Command::new(project("office/farm-file")).arg(project("examples/orchard.farm")).output();
        assert!(made.expect("python3 runs").stdout == file);
        let page = String::from_utf8(kept("docs/FARM_FILE.md")).expect("it is text");
        let shown = page.lines().filter_map(|line| line.strip_prefix("    000000")).map(|line| &line[4..43]);
        let shown: String = shown.flat_map(str::chars).filter(|c| *c != ' ').collect();
        let bytes: String = file[..128].iter().map(|byte| format!("{byte:02x}")).collect();
        assert_eq!(shown, bytes);
    }
}
