//! The case sets of the repository, each in a folder of `cases`: folders with what the program reads and prints, and a
//! file of calls with their answers. Both the product and the reference must give what stands there.

mod calls;
mod folders;
mod lines;
mod streams;

use std::path::{Path, PathBuf};
use std::{fs, io};

use harness::{ensure, Check, Options, Tally};
use lines::Object;
use reference_gateway::{Calls, Reference};

/// From this crate's folder.
const CASES: &str = "../cases";

/// The files of calls.
const FILES: [&str; 2] = ["library.jsonl", "calls.jsonl"];

/// A set by its folder's name, and how many case folders and calls are there.
struct CaseSet {
    name: &'static str,
    folders: usize,
    calls: usize,
}

const SETS: &[CaseSet] = &[
    // All rules but those of change requests.
    CaseSet { name: "base", folders: 173, calls: 0 },
    // Names that meet in C.
    CaseSet { name: "req02", folders: 53, calls: 169 },
    // Stricter alternates.
    CaseSet { name: "req05", folders: 60, calls: 216 },
    // Places.
    CaseSet { name: "req06", folders: 60, calls: 223 },
    // Messages in pieces.
    CaseSet { name: "req10", folders: 0, calls: 254 },
];

struct Product;

impl Calls for Product {
    fn compile(&self, schema: &[u8], rows: &mut [u32]) -> (u32, usize, usize) {
        windosprio::calls::compile(schema, rows)
    }

    fn check(&self, table: &[u32], schema: &[u8], message: &[u8], records: &mut [u32]) -> (u32, usize, usize, usize) {
        windosprio::calls::check(table, schema, message, records)
    }
}

/// Runs `check` with the calls of the product, then with those of the reference; a failure says of which.
fn by_both(mut check: impl FnMut(&dyn Calls) -> Check) -> Check {
    check(&Product).map_err(|reason| format!("product: {reason}"))?;
    check(&Reference).map_err(|reason| format!("reference: {reason}"))
}

pub fn run(_: &Options, tally: &mut Tally) -> Check {
    let root = root();
    check_known(names(&root)?.into_iter().filter(|name| root.join(name).is_dir()))?;
    for set in SETS {
        let failed = |reason: String| format!("cases/{}: {reason}", set.name);
        let place = root.join(set.name);
        let (folders, lines) = set.contents(&place).map_err(failed)?;
        for name in folders {
            folders::check(&place.join(&name)).map_err(|reason| failed(format!("folder {name}: {reason}")))?;
            tally.add("cases", "folder");
            tally.pass();
        }
        for (line, number) in lines.iter().zip(1..) {
            let call = check_call(line).map_err(|reason| failed(format!("call {number}: {reason}")))?;
            tally.add("cases", call);
            tally.pass();
        }
    }
    Ok(())
}

/// The name of the line's call, where both answer as the line says.
fn check_call(line: &str) -> Result<&'static str, String> {
    match Object::parse(line)?.text("call")?.as_str() {
        "stream" => streams::check(line).map(|()| "stream"),
        _ => calls::check(line),
    }
}

fn root() -> PathBuf {
    Path::new(env!("CARGO_MANIFEST_DIR")).join(CASES)
}

/// Fails where a folder is no set's.
fn check_known(folders: impl Iterator<Item = String>) -> Check {
    let unknown: Vec<_> = folders.filter(|name| SETS.iter().all(|set| set.name != name)).collect();
    ensure(unknown.is_empty(), || format!("cases that belong to no set: {unknown:?}"))
}

impl CaseSet {
    /// The names of the case folders and the lines of the files of calls, if there are as many as the set has.
    fn contents(&self, place: &Path) -> Result<(Vec<String>, Vec<String>), String> {
        let (files, folders): (Vec<_>, Vec<_>) =
            names(place)?.into_iter().partition(|name| FILES.contains(&name.as_str()));
        let mut lines = Vec::new();
        for file in files {
            let text = fs::read_to_string(place.join(&file)).map_err(|error| format!("{file}: {error}"))?;
            lines.extend(text.lines().map(str::to_string));
        }
        let (found, expected) = ((folders.len(), lines.len()), (self.folders, self.calls));
        ensure(found == expected, || format!("(folders, calls) are {found:?}, not {expected:?}"))?;
        Ok((folders, lines))
    }
}

/// What lies in a folder, in order.
fn names(folder: &Path) -> Result<Vec<String>, String> {
    let entries = fs::read_dir(folder).and_then(|entries| entries.collect::<io::Result<Vec<_>>>());
    let entries = entries.map_err(|error| format!("{}: {error}", folder.display()))?;
    let mut names: Vec<_> = entries.iter().map(|entry| entry.file_name().to_string_lossy().into_owned()).collect();
    names.sort();
    Ok(names)
}

#[cfg(test)]
mod tests {
    use super::*;

    #[test]
    fn a_set_with_other_counts_is_noticed() {
        for &CaseSet { name, folders, calls } in SETS {
            let contents = |folders, calls| CaseSet { name, folders, calls }.contents(&root().join(name));
            assert!(contents(folders, calls).is_ok(), "{name}");
            for (folders, calls) in [(folders + 1, calls), (folders.wrapping_sub(1), calls), (folders, calls + 1)] {
                assert!(contents(folders, calls).is_err(), "{name}");
            }
        }
        assert!(CaseSet { name: "none", folders: 0, calls: 0 }.contents(&root().join("none")).is_err());
    }

    #[test]
    fn a_folder_of_no_set_is_noticed() {
        let check = |names: &[&str]| check_known(names.iter().map(|name| name.to_string()));
        assert!(check(&[SETS[0].name]).is_ok() && check(&[SETS[0].name, "more"]).is_err());
    }
}
