//! The reports of schedules by events of this crate, beside those that are due and those of the program.
mod report;

use report::report_of;
use std::fs::File;
use std::path::{Path, PathBuf};
use std::process::Command;

fn top() -> PathBuf {
    Path::new(env!("CARGO_MANIFEST_DIR")).join("../..")
}

/// The row runs its schedule to the end, on ordinary streams.
fn is_plain(path: &Path) -> bool {
    let row = std::fs::read_to_string(path.with_extension("row")).unwrap_or_default();
    let streams = ["input:", "output:", "errors:"];
    row.lines().any(|it| it == "status: 0") && !streams.iter().any(|it| row.contains(it))
}

/// The schedules of a folder that end with status 0, where their report stands beside them.
fn schedules(folder: &str) -> Vec<PathBuf> {
    let mut found: Vec<PathBuf> = std::fs::read_dir(top().join(folder))
        .expect("the folder")
        .map(|entry| entry.expect("a file").path())
        .filter(|path| path.extension().is_some_and(|it| it == "schedule"))
        .filter(|path| path.with_extension("report").exists())
        .filter(|path| path.with_extension("row").exists() <= is_plain(path))
        .collect();
    found.sort();
    found
}

fn read(path: &Path) -> Vec<u8> {
    std::fs::read(path).expect("a file of the repository")
}

#[test]
fn the_reports_of_the_rows_are_those_that_are_due() {
    let rows = schedules("tests/rows/replay");
    assert!(rows.len() > 50);
    for path in rows.iter().chain(&schedules("examples")) {
        let made = report_of(&read(path)).expect("a report");
        assert!(made == read(&path.with_extension("report")), "{}", path.display());
    }
}

/// The program is the one that VOSDRIENG_PROGRAM names, or that the gate leaves. Without one this is skipped.
#[test]
fn the_reports_of_the_rows_are_those_of_replay() {
    let left = top().join("crates/hc_app/out/hc_app");
    let program = std::env::var_os("VOSDRIENG_PROGRAM").map_or(left, PathBuf::from);
    if !program.exists() {
        eprintln!("skipped: there is no program");
        return;
    }
    for path in schedules("tests/rows/replay") {
        let input = File::open(&path).expect("the schedule");
        let replayed = Command::new(&program).arg("replay").stdin(input).output().expect("the program runs");
        let made = report_of(&read(&path)).expect("a report");
        assert!(made == replayed.stdout, "{}", path.display());
    }
}
