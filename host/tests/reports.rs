//! `visor report`, as a person uses it.

mod random;

use random::Random;
use std::path::{Path, PathBuf};
use std::process::{Command, Output};
use std::time::{Duration, Instant};
use visorlongan::{count, drift, Drift, End, Record, Verdict};

fn folder(name: &str) -> PathBuf {
    let folder = Path::new(env!("CARGO_TARGET_TMPDIR")).join(format!("reports-{name}"));
    let _ = std::fs::remove_dir_all(&folder);
    std::fs::create_dir_all(&folder).expect("a folder for the test");
    folder
}

fn report(arguments: &[&str], folder: &Path) -> Output {
    let mut command = Command::new(env!("CARGO_BIN_EXE_visor"));
    command.arg("report").args(arguments).current_dir(folder);
    command.output().expect("visor runs")
}

fn said(bytes: &[u8]) -> String {
    String::from_utf8(bytes.to_vec()).expect("text")
}

/// A record of an object that passes most checks.
fn record(r: &mut Random) -> Record {
    let mut bytes = [0; 61];
    let object = loop {
        let object = r.object();
        if object.len() >= 40 {
            break object;
        }
    };
    bytes[..40].copy_from_slice(&object[..40]);
    bytes[41] = r.from(0, 20) as u8;
    bytes[43] = r.from(0, 20) as u8;
    bytes[44..46].copy_from_slice(&(r.from(200, 640) as u16).to_be_bytes());
    bytes[46..48].copy_from_slice(&(r.from(200, 480) as u16).to_be_bytes());
    bytes[52] = if r.once_in(50) {
        8
    } else {
        r.from(9, 10) as u8
    };
    bytes[57] = 0x80;
    Record::from(bytes)
}

fn grouped(number: usize) -> String {
    match number {
        0..1000 => number.to_string(),
        _ => format!("{},{:03}", number / 1000, number % 1000),
    }
}

/// Two thousand objects: in seconds, and with true counts.
#[test]
fn two_thousand_objects() {
    let folder = folder("thousands");
    let mut r = Random(7);
    let records: Vec<Record> = (0..2000).map(|_| record(&mut r)).collect();
    let bytes: Vec<u8> = records
        .iter()
        .flat_map(|record| *record.as_bytes())
        .collect();
    std::fs::write(folder.join("all.records"), bytes).unwrap();
    let start = Instant::now();
    let output = report(&["all.records", "-o", "all.html"], &folder);
    let spent = start.elapsed();
    // A release takes some four seconds; tests are not compiled as one, and run beside others.
    assert!(spent < Duration::from_secs(60), "{spent:?}");
    println!("2,000 objects took {spent:?}");
    assert_eq!(output.status.code(), Some(1));
    let ends: Vec<End> = records
        .iter()
        .map(|record| count(&record.request()))
        .collect();
    let refused = ends
        .iter()
        .filter(|end| end.verdict != Verdict::Finished)
        .count();
    counts_are_true(&said(&output.stdout), &ends, refused);
    worst_is_true(&said(&output.stdout), &records);
    let page = std::fs::read_to_string(folder.join("all.html")).unwrap();
    assert_eq!(
        page.matches("<tr").count(),
        2001,
        "a row for each, and the headings"
    );
    assert_eq!(page.matches("src=\"data:image/png;base64,").count(), 2000);
    assert_eq!(page.matches(" class=\"refused\"").count(), refused);
}

fn counts_are_true(summary: &str, ends: &[End], refused: usize) {
    for verdict in Verdict::ALL {
        let number = verdict.number();
        let wanted = ends.iter().filter(|end| end.verdict == *verdict).count();
        let line = format!("{:>9} with verdict {number}: {verdict}\n", grouped(wanted));
        assert_eq!(summary.contains(&line), wanted > 0, "{line}{summary}");
    }
    let (planned, refused) = (grouped(2000 - refused), grouped(refused));
    let first = format!("2,000 requests: {planned} planned, {refused} refused\n");
    assert!(summary.starts_with(&first), "{summary}");
    let largest = ends.iter().map(|end| end.tile_words).max().unwrap();
    assert!(
        summary.contains(&format!("largest load: {largest} of ")),
        "{summary}"
    );
}

fn worst_is_true(summary: &str, records: &[Record]) {
    let worst = records.iter().flat_map(distances).map(i64::abs).max();
    let mut lines = summary.lines();
    let told = lines
        .find_map(|line| line.strip_prefix("worst drift: "))
        .expect("a line");
    let told: i64 = told.split('/').next().unwrap().parse().expect("a number");
    assert_eq!(Some(told.abs()), worst, "{summary}");
}

fn distances(record: &Record) -> Vec<i64> {
    let request = record.request();
    let mut words = vec![0; count(&request).rectangles as usize * Drift::WORDS];
    if request.opcode != 9 {
        return Vec::new();
    }
    // Where no limits are proved a distance may be off by whole images.
    let measured = drift(&request, &mut words);
    match measured.proved {
        true => measured.map(|drift| drift.distance).collect(),
        false => Vec::new(),
    }
}

/// A folder has files of every kind; those that are no objects are named, and the others go on.
#[test]
fn a_folder_of_objects() {
    let folder = folder("folder");
    let cases = Path::new(env!("CARGO_MANIFEST_DIR")).join("tests/cases");
    let place = folder.join("objects");
    std::fs::create_dir_all(place.join("inside")).unwrap();
    for name in ["A.bin", "E.bin", "H.bin"] {
        std::fs::copy(cases.join(name), place.join(name)).unwrap();
    }
    std::fs::write(place.join(".hidden"), "no object").unwrap();
    let output = report(&["objects"], &folder);
    let summary = said(&output.stdout);
    assert_eq!(output.status.code(), Some(0), "{summary}");
    assert_eq!(
        summary,
        "3 requests: 3 planned, 0 refused\n        3 with verdict 0: The plan is complete.\n\
         worst drift: +896/1,024 of a row in H.bin, with limits of -1030 and +1033; \
         limits are proved for 2 of 2 scaled plans\n\
         seams that show: 39 in 1 of the requests, most in H.bin (39)\n\
         largest load: 486 of 512 words in E.bin\n\
         lines and columns of the frame not drawn: in 1 of those planned, most in E.bin (1 and 1)\n"
    );
    std::fs::write(place.join("notes.txt"), "call the museum back\n").unwrap();
    std::fs::copy(cases.join("B.bin"), place.join("B.bin")).unwrap();
    let output = report(&["objects", "-o", "objects.html"], &folder);
    assert_eq!(output.status.code(), Some(2));
    let why = said(&output.stderr);
    assert!(
        why.contains("notes.txt:1:1: 'c'") || why.contains("notes.txt:1:"),
        "{why}"
    );
    assert!(why.contains("1 file is left out of the report"), "{why}");
    assert!(said(&output.stdout).starts_with("4 requests: 3 planned, 1 refused\n"));
    let page = std::fs::read_to_string(folder.join("objects.html")).unwrap();
    assert!(page.contains("Not read:") && page.contains("notes.txt"));
}

#[test]
fn what_cannot_be_reported_is_said() {
    let folder = folder("wrong");
    std::fs::create_dir_all(folder.join("empty")).unwrap();
    let output = report(&["empty"], &folder);
    assert_eq!(output.status.code(), Some(2));
    assert!(said(&output.stderr).contains("empty: there are no files in this folder"));
    let output = report(&["nothing-here"], &folder);
    assert_eq!(output.status.code(), Some(3));
    std::fs::write(folder.join("cut.records"), [0; 100]).unwrap();
    let output = report(&["cut.records"], &folder);
    assert_eq!(output.status.code(), Some(2), "{}", said(&output.stderr));
    let output = report(&["cut.records", "-o"], &folder);
    assert_eq!(output.status.code(), Some(2));
    assert!(said(&output.stderr).contains("-o wants a value"));
}

/// On a terminal a line says how far it is; elsewhere nothing does.
#[test]
fn progress_on_a_terminal() {
    let folder = folder("terminal");
    let mut r = Random(11);
    let bytes: Vec<u8> = (0..400).flat_map(|_| *record(&mut r).as_bytes()).collect();
    std::fs::write(folder.join("some.records"), bytes).unwrap();
    let plain = report(&["some.records"], &folder);
    assert!(
        !said(&plain.stderr).contains(" of 400"),
        "no progress without a terminal"
    );
    let line = format!("{} report some.records", env!("CARGO_BIN_EXE_visor"));
    let mut command = Command::new("script");
    command
        .args(["-qec", &line, "/dev/null"])
        .current_dir(&folder);
    match command.output() {
        Ok(output) => {
            let shown = String::from_utf8_lossy(&output.stdout).into_owned();
            assert!(shown.contains("visor: 0 of 400"), "{shown:?}");
            assert!(shown.contains("400 requests: "), "{shown:?}");
        }
        Err(_) => println!("there is no script: not run on a terminal"),
    }
}
