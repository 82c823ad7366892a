//! The example folders hold what the cases say and what both schedulers report.

use peer::cases::CASES;
use peer::{library, peer as second};
use std::fs;
use std::path::{Path, PathBuf};

fn root() -> PathBuf {
    Path::new(env!("CARGO_MANIFEST_DIR")).join("../examples")
}

fn read(path: &Path) -> Vec<u8> {
    fs::read(path).unwrap_or_else(|error| panic!("{}: {error}", path.display()))
}

/// Folders with a sheet, at any depth.
fn folders(below: &Path, found: &mut Vec<PathBuf>) {
    if below.join("sheet.bin").exists() {
        found.push(below.to_path_buf());
    }
    for entry in fs::read_dir(below).expect("a folder") {
        let path = entry.expect("an entry").path();
        if path.is_dir() {
            folders(&path, found);
        }
    }
}

#[test]
fn folders_hold_the_cases() {
    for case in CASES {
        let folder = root().join(case.name);
        assert_eq!(read(&folder.join("sheet.bin")), case.sheet, "{}", case.name);
        assert_eq!(read(&folder.join("calls.bin")), case.calls, "{}", case.name);
        let stdout = read(&folder.join("stdout"));
        assert_eq!(stdout, case.report.as_bytes(), "{}", case.name);
    }
    let mut found = Vec::new();
    folders(&root(), &mut found);
    assert_eq!(found.len(), CASES.len());
}

fn check(run: impl Fn(&[u8], &[u8]) -> Vec<u8>) {
    let mut found = Vec::new();
    folders(&root(), &mut found);
    assert!(!found.is_empty());
    for folder in found {
        let sheet = read(&folder.join("sheet.bin"));
        let calls = read(&folder.join("calls.bin"));
        let stdout = read(&folder.join("stdout"));
        assert_eq!(run(&sheet, &calls), stdout, "{}", folder.display());
    }
}

#[test]
fn peer_reports_the_examples() {
    check(second::run);
}

#[test]
fn library_reports_the_examples() {
    check(library::run);
}
