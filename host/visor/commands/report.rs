//! `visor report`: many requests at once.

use crate::args::Args;
use crate::command::{Command, Failure, Outcome, Status};
use crate::fields::grouped;
use crate::input::{self, Asked, Subject};
use crate::io::{self, Io};
use crate::page;
use crate::report::{summary, Row};
use crate::study::Study;
use std::ffi::OsStr;
use std::path::{Path, PathBuf};
use std::sync::atomic::{AtomicUsize, Ordering};
use std::sync::Mutex;
use std::time::{Duration, Instant};

/// How often the progress line is written.
const TICK: Duration = Duration::from_millis(100);

pub const COMMAND: Command = Command {
    name: "report",
    summary: "plan many requests: counts by verdict, worst drift, seams, what is not drawn",
    usage: "FOLDER|FILE [-o REPORT.html] [INPUT OPTIONS]",
    help: "\
A FOLDER's files are records, objects or hex dumps, one or more requests each; a FILE has records
of 61 bytes one after another. Files that are none of these are named, and the others go on.
  -o REPORT.html    a page with a table that sorts by its headings, and a thumbnail of each
The exit status is 1 where a request was refused, and 2 where a file could not be read.",
    example: "report cases.records",
    shows: "\
21 requests: 14 planned, 7 refused
       14 with verdict 0: The plan is complete.
        2 with verdict 4: The object has a width or height of 0, a size above 3, a format above 4 or an unknown load.
        1 with verdict 5: The copy object has a load other than 0xfff4, an image or a tmem_h under 4 units, a tmem_size_w of 0, tile memory fields whose product is another, or a flip above 1.
        2 with verdict 7: A copy strip does not fit texture memory.
        1 with verdict 8: A part of a scaled strip has no rows, no width or no place in texture memory.
        1 with verdict 9: An image address, or the end of a load, leaves the 64-bit address space.
worst drift: +896/1,024 of a row in cases.records#7, with limits of -1030 and +1033; limits are proved for 7 of 7 scaled plans
seams that show: 78 in 2 of the requests, most in cases.records#7 (39)
largest load: 512 of 512 words in cases.records#3
lines and columns of the frame not drawn: in 5 of those planned, most in cases.records#5 (1 and 1)",
    run,
};

fn run(mut args: Args, io: &mut Io) -> Outcome {
    let asked = Asked::take(&mut args)?;
    let out = args.value("-o")?;
    let [operand] = args.operands("FOLDER or FILE")?;
    let found = gather(&operand, &asked, io)?;
    for said in &found.unread {
        io.tell(&format!("visor: {said}"));
    }
    let rows = study_all(&found.subjects, out.is_some(), io);
    for line in summary(&rows) {
        writeln!(io.out, "{line}")?;
    }
    if let Some(out) = out {
        let name = out.to_string_lossy();
        let page = page::html(&operand.to_string_lossy(), &rows, &found.unread);
        io::save(&out, page.as_bytes())?;
        writeln!(io.out, "{name}: a table of all of them")?;
    }
    match rows.iter().any(Row::refused) {
        _ if !found.unread.is_empty() => {
            let count = found.unread.len();
            let files = if count == 1 { "file is" } else { "files are" };
            Err(Failure::Input(format!(
                "{count} {files} left out of the report"
            )))
        }
        true => Ok(Status::Refused),
        false => Ok(Status::Good),
    }
}

/// The requests of a report, and what is wrong with files that are none.
struct Found {
    subjects: Vec<Subject>,
    unread: Vec<String>,
}

fn gather(operand: &OsStr, asked: &Asked, io: &mut Io) -> Result<Found, Failure> {
    let path = Path::new(operand);
    if operand == "-" || !path.is_dir() {
        let (name, bytes) = input::source(operand, io)?;
        let (subjects, detected) = input::subjects(&name, &bytes, asked)?;
        io.tell(&format!("visor: {name}: {detected}"));
        let unread = Vec::new();
        return Ok(Found { subjects, unread });
    }
    let mut found = Found {
        subjects: Vec::new(),
        unread: Vec::new(),
    };
    for file in files(path)? {
        let read = input::source(file.as_os_str(), io);
        let name = file
            .file_name()
            .unwrap_or_default()
            .to_string_lossy()
            .into_owned();
        match read.and_then(|(_, bytes)| input::subjects(&name, &bytes, asked)) {
            Ok((subjects, _)) => found.subjects.extend(subjects),
            Err(Failure::Input(said) | Failure::System(said)) => found.unread.push(said),
            Err(failure) => return Err(failure),
        }
    }
    if found.subjects.is_empty() && found.unread.is_empty() {
        let said = format!("{}: there are no files in this folder", path.display());
        return Err(Failure::Input(said));
    }
    Ok(found)
}

/// The files of a folder, by name; folders inside are left out, and files whose names begin with a
/// dot.
fn files(folder: &Path) -> Result<Vec<PathBuf>, Failure> {
    let wrong = |error: std::io::Error| Failure::system(&folder.display().to_string(), &error);
    let mut files = Vec::new();
    for entry in std::fs::read_dir(folder).map_err(wrong)? {
        let path = entry.map_err(wrong)?.path();
        let hidden = path
            .file_name()
            .is_some_and(|name| name.to_string_lossy().starts_with('.'));
        if path.is_file() && !hidden {
            files.push(path);
        }
    }
    files.sort();
    Ok(files)
}

/// Follows every request, on all cores, with a line on how far it is where someone watches.
fn study_all(subjects: &[Subject], page: bool, io: &mut Io) -> Vec<Row> {
    let (next, done) = (AtomicUsize::new(0), AtomicUsize::new(0));
    let rows = Mutex::new(Vec::with_capacity(subjects.len()));
    let workers = std::thread::available_parallelism().map_or(1, usize::from);
    let start = Instant::now();
    std::thread::scope(|scope| {
        for _ in 0..workers {
            scope.spawn(|| {
                while let Some(n) =
                    Some(next.fetch_add(1, Ordering::Relaxed)).filter(|n| *n < subjects.len())
                {
                    let row = Row::of(&Study::of(&subjects[n]), page);
                    rows.lock().expect("no worker panics").push((n, row));
                    done.fetch_add(1, Ordering::Release);
                }
            });
        }
        while io.watched && done.load(Ordering::Acquire) < subjects.len() {
            progress(
                io,
                done.load(Ordering::Relaxed),
                subjects.len(),
                start.elapsed(),
            );
            std::thread::sleep(TICK);
        }
    });
    if io.watched {
        let _ = write!(io.err, "\r\x1b[K");
    }
    let mut rows = rows.into_inner().expect("no worker panics");
    rows.sort_by_key(|(n, _)| *n);
    rows.into_iter().map(|(_, row)| row).collect()
}

fn progress(io: &mut Io, done: usize, all: usize, spent: Duration) {
    let left = match done {
        0 => String::new(),
        _ => {
            let seconds = spent.as_secs_f64() * (all - done) as f64 / done as f64;
            format!(", {} s left", seconds.ceil() as u64)
        }
    };
    let (done, all) = (grouped(done as i64), grouped(all as i64));
    let _ = write!(io.err, "\r\x1b[Kvisor: {done} of {all}{left}");
    let _ = io.err.flush();
}
