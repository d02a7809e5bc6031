//! The program on arguments and files.

mod common;

use common::TRACE_A;
use reference::generator::flat_table;
use std::ffi::OsStr;
use std::fs;
use std::path::{Path, PathBuf};
use std::process::Command;

const REPORT_A: &str = "verdict corrected\nlisted 5\npassed 0\nmatched 2\nunreceived 0\nrounds 3\n";

/// A folder of its own for each test, with trace A and the table of fives.
fn folder(name: &str) -> PathBuf {
    let folder = Path::new(env!("CARGO_TARGET_TMPDIR")).join(name);
    let _ = fs::remove_dir_all(&folder);
    fs::create_dir_all(&folder).unwrap();
    fs::write(folder.join("trace"), TRACE_A).unwrap();
    fs::write(folder.join("table"), table(5)).unwrap();
    folder
}

fn table(latency: u32) -> Vec<u8> {
    flat_table(latency).iter().flat_map(|latency| latency.to_le_bytes()).collect()
}

fn said(folder: &Path, arguments: &[&str]) -> String {
    let program = env!("CARGO_BIN_EXE_cantuvesh-reference");
    let output = Command::new(program).args(arguments.iter().map(OsStr::new)).current_dir(folder).output();
    String::from_utf8(output.unwrap().stdout).unwrap()
}

#[test]
fn the_report_for_trace_a() {
    let folder = folder("report");
    assert_eq!(said(&folder, &["1", "trace", "table"]), REPORT_A);
    assert_eq!(said(&folder, &["2", "trace", "table", "written"]), REPORT_A);
    let written = fs::read_to_string(folder.join("written")).unwrap();
    assert_eq!(written.lines().nth(4), Some("-4 -51 0.000020 0 0 3 2 8 2 1"));
}

#[test]
fn the_first_argument_is_compared_as_bytes() {
    let folder = folder("choice");
    for choice in ["0", "3", "01", "+1", "1 ", "", "11", "one"] {
        assert_eq!(said(&folder, &[choice, "trace", "table"]), "refused 1 line 0 column 0\n");
    }
    assert_eq!(said(&folder, &[]), "refused 1 line 0 column 0\n");
    assert_eq!(said(&folder, &["3", "missing"]), "refused 1 line 0 column 0\n");
}

#[test]
fn files_that_cannot_be_read() {
    let folder = folder("files");
    fs::write(folder.join("short"), [0; 16_383]).unwrap();
    fs::write(folder.join("long"), vec![b'x'; 65_537]).unwrap();
    for arguments in [
        &["1"][..],
        &["1", "trace"],
        &["1", "missing", "table"],
        &["1", "trace", "missing"],
        &["1", "missing", "short"],
        &["1", ".", "table"],
        &["1", "", "table"],
    ] {
        assert_eq!(said(&folder, arguments), "cannot read\n");
    }
    assert_eq!(said(&folder, &["1", "long", "short"]), "refused 2 line 0 column 0\n");
    assert_eq!(said(&folder, &["1", "long", "table"]), "refused 4 line 0 column 0\n");
}

#[test]
fn tables() {
    let folder = folder("tables");
    fs::write(folder.join("longer"), [table(0), vec![0]].concat()).unwrap();
    fs::write(folder.join("high"), table(1_000_001)).unwrap();
    fs::write(folder.join("limit"), table(1_000_000)).unwrap();
    assert_eq!(said(&folder, &["1", "trace", "longer"]), "refused 2 line 0 column 0\n");
    assert_eq!(said(&folder, &["1", "trace", "high"]), "refused 3 line 0 column 0\n");
    assert_eq!(said(&folder, &["1", "trace", "limit"]), REPORT_A);
}

#[test]
fn every_verdict_writes_the_file() {
    let folder = folder("verdicts");
    let sound = "-3 -21 0.000000 0 0 3 2 8 1 1\n-4 -52 0.000005 1 0 3 2 8 1 0\n";
    for (name, trace, verdict) in [("sound", sound, "consistent"), ("empty", "", "nothing to judge")] {
        fs::write(folder.join(name), trace).unwrap();
        let report = said(&folder, &["1", name, "table", "written"]);
        assert_eq!(report.lines().next(), Some(format!("verdict {verdict}").as_str()));
        assert_eq!(fs::read_to_string(folder.join("written")).unwrap(), trace);
    }
}

#[test]
fn a_refusal_writes_no_file() {
    let folder = folder("unwritten");
    fs::write(folder.join("bad"), "x\n").unwrap();
    assert_eq!(said(&folder, &["1", "bad", "table", "written"]), "refused 5 line 1 column 2\n");
    assert!(!folder.join("written").exists());
}

#[test]
fn room_for_65536_bytes() {
    let folder = folder("room");
    let mut trace =
        b"-3 -21 10.000000 0 0 3 2 8 1 1\n-4 -52 0.000000 1 0 3 2 8 1 0\n-5 0 0.000000 0 0 1 ".to_vec();
    trace.resize(65_535, b'x');
    trace.push(b'\n');
    fs::write(folder.join("trace"), trace).unwrap();
    assert!(said(&folder, &["2", "trace", "table"]).starts_with("verdict corrected\n"));
    assert_eq!(said(&folder, &["2", "trace", "table", "written"]), "refused 16 line 0 column 0\n");
}
