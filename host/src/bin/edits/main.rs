//! Where each must-fail edit was refused. The toolchain applies all edits of a file at once and sees that the file is
//! refused, so one could hide the others. This program reads crates/*/must-fail, checks a copy of the crate with the edits of
//! each file, and asks for a fact of its own for every edit. Where `rt check` or another check here kept what it proved of the
//! crates as they stand, only what the edits change is checked.
//!
//!     cargo run --offline --release --manifest-path host/Cargo.toml --bin edits [CRATE..]
//!
//! It prints a line for each edit, and ends with status 1 where one has no such fact.

mod answers;
mod edit;
mod facts;
mod room;
mod seen;
mod source;

use room::Room;
use source::Sources;
use std::collections::{BTreeMap, BTreeSet};
use std::path::{Path, PathBuf};
use std::sync::atomic::{AtomicUsize, Ordering};
use std::sync::Mutex;

/// A file of edits.
struct Job {
    name: String,
    file: PathBuf,
}

fn main() {
    let top = Path::new(env!("CARGO_MANIFEST_DIR")).join("..");
    let wanted: Vec<String> = std::env::args().skip(1).collect();
    let mut jobs = Vec::new();
    let mut sources = BTreeMap::new();
    for folder in entries(&top.join("crates")) {
        let name = stem(&folder);
        let mut files = entries(&folder.join("must-fail"));
        files.retain(|file| file.extension().is_some_and(|ending| ending == "edit"));
        if files.is_empty() || !wanted.is_empty() && !wanted.contains(&name) {
            continue;
        }
        sources.insert(name.clone(), Sources::new(&name, files_of(&folder)));
        let job = |file| Job {
            name: name.clone(),
            file,
        };
        jobs.extend(files.into_iter().map(job));
    }
    let said = side_by_side(&top, &jobs, &sources);
    let (mut all, mut unseen) = (0, 0);
    for (line, is_seen) in said.iter().flatten() {
        println!("{line}");
        all += 1;
        unseen += usize::from(!is_seen);
    }
    println!("{all} edits, {unseen} with no fact of their own");
    std::process::exit(i32::from(all == 0 || unseen > 0));
}

/// What is said of each file, as many at a time as there are processors, each at work in a copy of its own.
fn side_by_side(top: &Path, jobs: &[Job], sources: &BTreeMap<String, Sources>) -> Vec<Vec<Said>> {
    let next = AtomicUsize::new(0);
    let said = Mutex::new(vec![Vec::new(); jobs.len()]);
    let workers = std::thread::available_parallelism().map_or(1, |count| count.get());
    std::thread::scope(|scope| {
        for number in 0..workers.min(jobs.len()) {
            let (next, said) = (&next, &said);
            scope.spawn(move || {
                let room = Room::new(top, number);
                let mut begun = BTreeSet::new();
                loop {
                    let at = next.fetch_add(1, Ordering::SeqCst);
                    let Some(job) = jobs.get(at) else { break };
                    if begun.insert(&job.name) {
                        room.begin(&job.name);
                    }
                    let lines = tried(&room, job, &sources[&job.name]);
                    said.lock().expect("no thread has failed")[at] = lines;
                }
            });
        }
    });
    said.into_inner().expect("no thread has failed")
}

/// A line, and whether it names a fact.
type Said = (String, bool);

/// A line for each edit of a file.
fn tried(room: &Room, job: &Job, sources: &Sources) -> Vec<Said> {
    let edits = edit::edits(&read(&job.file));
    let facts = room.tried(&job.name, &edits);
    let seen = seen::seen(sources, &edits, &facts);
    let line = |(edit, fact): (&edit::Edit, Option<&facts::Fact>)| {
        let place = fact.map_or("NO FACT OF ITS OWN".to_string(), |fact| fact.to_string());
        let line = format!("{}/{}: {} [{place}]", job.name, stem(&job.file), edit.says);
        (line, fact.is_some())
    };
    edits.iter().zip(seen).map(line).collect()
}

/// The sources of a crate, by their paths in it.
fn files_of(folder: &Path) -> Vec<(String, String)> {
    let mut all = Vec::new();
    let mut folders: Vec<PathBuf> = ["src", "specs", "proofs"]
        .map(|part| folder.join(part))
        .into();
    while let Some(next) = folders.pop() {
        for entry in entries(&next) {
            if entry.is_dir() {
                folders.push(entry);
            } else {
                let name = entry
                    .strip_prefix(folder)
                    .expect("a file of the crate")
                    .to_string_lossy()
                    .into_owned();
                all.push((name, read(&entry)));
            }
        }
    }
    all
}

/// What a folder holds, in order; nothing where it is not there.
fn entries(folder: &Path) -> Vec<PathBuf> {
    let mut all: Vec<PathBuf> = std::fs::read_dir(folder)
        .into_iter()
        .flatten()
        .map(|entry| entry.expect("an entry").path())
        .collect();
    all.sort();
    all
}

/// A file's text.
fn read(file: &Path) -> String {
    std::fs::read_to_string(file).unwrap_or_else(|error| panic!("{}: {error}", file.display()))
}

/// A file's name without its ending.
fn stem(file: &Path) -> String {
    file.file_stem()
        .expect("a name")
        .to_string_lossy()
        .into_owned()
}
