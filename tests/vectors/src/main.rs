//! Runs the examples of the source documents, and inputs at the limits of the rules, through the product and the
//! reference, and holds both against answers decided by hand from the rules (docs/REFERENCE.md).
//!
//! The documents aren't part of the repository: they are read from the folder `shared` beside it. The tables of
//! `documents` say where each example stands in them. Without any of the documents their examples are counted as
//! skipped; with some of them, one that is missing is a failure.

#![forbid(unsafe_code)]

mod calls;
mod counts;
mod documents;
mod limits;
mod pieces;

use std::fs;
use std::path::Path;
use std::process::ExitCode;

use harness::{Check, Report, Tally};

use counts::Counts;
use documents::{Document, DOCUMENTS};
use pieces::Text;

/// From this crate's folder.
const FOLDER: &str = "../../../shared";

fn main() -> ExitCode {
    let folder = Path::new(env!("CARGO_MANIFEST_DIR")).join(FOLDER);
    let texts = DOCUMENTS.map(|document| read_text(&folder, document));
    let mut report = Report::new("vectors");
    if texts.iter().all(Option::is_none) {
        println!("no source documents in shared beside the repository: their examples are skipped");
        report.skip(DOCUMENTS.iter().map(|document| document.checks()).sum());
    } else {
        for (document, text) in DOCUMENTS.iter().zip(texts) {
            match text {
                Some(text) => println!("{}: {}", document.name, run_document(document, &text, &mut report)),
                None => add(&mut report, Err(format!("document {} isn't beside the others", document.name))),
            }
        }
    }
    println!("limits: {}", run_limits(&mut report));
    report.finish()
}

/// The document whose file name starts with its name and `_`.
fn read_text(folder: &Path, document: &Document) -> Option<Text> {
    let start = format!("{}_", document.name);
    let named = |entry: &fs::DirEntry| entry.file_name().to_string_lossy().starts_with(&start);
    let file = fs::read_dir(folder).ok()?.filter_map(Result::ok).find(named)?;
    Some(Text::new(fs::read(file.path()).ok()?, document.framed))
}

/// Runs all its examples; gives what its line says of them.
fn run_document(document: &Document, text: &Text, report: &mut Report) -> String {
    let mut run = |what: &str, checks: Vec<Result<u32, String>>| {
        let mut counts = Counts::default();
        for checked in checks {
            let at_place = |reason: String| format!("document {}, {reason}", document.name);
            add(report, checked.map(|number| counts.add(number)).map_err(at_place));
        }
        format!("{} {what} ({counts})", counts.total())
    };
    let mut parts = Vec::new();
    for (what, schemas) in [("schemas", document.schemas), ("joined schemas", document.joined)] {
        if !schemas.is_empty() {
            parts.push(run(what, schemas.iter().map(|schema| schema.check(text)).collect()));
        }
    }
    parts.push(run("messages", document.messages.iter().map(|message| message.check(text)).collect()));
    parts.push(format!("{} left out", document.left_out.len()));
    add(report, document.check_listed(text).map_err(|reason| format!("document {}, {reason}", document.name)));
    parts.join(", ")
}

fn run_limits(report: &mut Report) -> String {
    let mut counts = Counts::default();
    for (name, checked) in limits::check_all() {
        add(report, checked.map(|number| counts.add(number)).map_err(|reason| format!("{name}: {reason}")));
    }
    format!("{} vectors ({counts})", counts.total())
}

/// Counts one vector, and says what is wrong with it.
fn add(report: &mut Report, checked: Check) {
    let mut tally = Tally::default();
    if checked.is_ok() {
        tally.pass();
    }
    report.add(checked, &tally);
}
