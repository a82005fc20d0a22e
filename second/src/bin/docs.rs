//! Holds the documents to the sources: every name that stands between backquotes in README.md or in docs/
//! must be a word of the sources or the name of a file, and every quoted statement of docs/PROOFS.md
//! must stand in a source to the letter. Run at the repository's root.

use std::collections::HashSet;
use std::fs;
use std::io;
use std::path::{Path, PathBuf};
use std::process::ExitCode;

/// The folders and files whose words the documents may name.
const SOURCES: [&str; 7] = [
    "crates",
    "second/src",
    "samples",
    "tools",
    ".ci",
    "amurgosa",
    "crates.txt",
];

/// The folder of a crate that the toolchain makes, which is no source.
const MADE: &str = "out";

/// Of these endings a file's text counts; of others only its name.
const TEXTS: [&str; 8] = ["rt", "antt", "edit", "h", "c", "rs", "txt", ""];

/// The document whose quoted statements are held to the sources.
const QUOTING: &str = "docs/PROOFS.md";

/// The documents that also name what was and is no more, which are not held to the sources.
const PAST: [&str; 2] = ["docs/PORT.md", "docs/DESIGN-PASS.md"];

/// All files below a path but those that the toolchain made, or the file itself.
fn files_below(path: &Path, files: &mut Vec<PathBuf>) -> io::Result<()> {
    if path.is_file() {
        files.push(path.to_path_buf());
        return Ok(());
    }
    for entry in fs::read_dir(path)? {
        let entry = entry?.path();
        if !entry.ends_with(MADE) {
            files_below(&entry, files)?;
        }
    }
    Ok(())
}

/// The words of a text: runs of letters, digits, and what names are joined with.
fn words(text: &str) -> impl Iterator<Item = &str> {
    text.split(|c: char| !(c.is_alphanumeric() || "_-'".contains(c)))
        .filter(|word| !word.is_empty())
}

/// The sources: their texts, and every word of them with the names of files and folders.
struct Sources {
    texts: Vec<String>,
    known: HashSet<String>,
}

impl Sources {
    /// Reads the sources.
    fn read() -> io::Result<Self> {
        let mut files = Vec::new();
        for source in SOURCES {
            files_below(Path::new(source), &mut files)?;
        }
        let mut sources = Self {
            texts: Vec::new(),
            known: HashSet::new(),
        };
        for file in files {
            sources.add(&file)?;
        }
        Ok(sources)
    }

    /// Adds a file: its name, and its words where it is a text.
    fn add(&mut self, file: &Path) -> io::Result<()> {
        self.known
            .extend(words(&file.to_string_lossy()).map(String::from));
        let ending = file.extension().unwrap_or_default().to_string_lossy();
        if TEXTS.contains(&ending.as_ref()) {
            let text = String::from_utf8_lossy(&fs::read(file)?).into_owned();
            self.known.extend(words(&text).map(String::from));
            self.texts.push(text);
        }
        Ok(())
    }
}

/// A document: what stands between backquotes on one line, and what stands in fenced blocks.
#[derive(Default)]
struct Document {
    spans: Vec<String>,
    blocks: Vec<String>,
}

impl Document {
    /// Takes a document's text apart.
    fn of(text: &str) -> Self {
        let mut document = Self::default();
        for (place, part) in text.split("```").enumerate() {
            if place % 2 == 1 {
                document
                    .blocks
                    .extend(part.split_once('\n').map(|(_, block)| block.to_string()));
            } else {
                document.spans.extend(
                    part.lines()
                        .flat_map(|line| line.split('`').skip(1).step_by(2))
                        .map(String::from),
                );
            }
        }
        document
    }

    /// The names in it: words that begin with a letter.
    fn names(&self) -> impl Iterator<Item = &str> {
        self.spans
            .iter()
            .flat_map(|span| words(span))
            .filter(|word| word.starts_with(char::is_alphabetic))
    }
}

/// Holds one document to the sources: prints what is missing, and gives how much was held and how much is missing.
fn hold(path: &Path, sources: &Sources) -> io::Result<(usize, usize)> {
    let document = Document::of(&fs::read_to_string(path)?);
    let names: HashSet<&str> = document.names().collect();
    let mut missing: Vec<String> = names
        .iter()
        .filter(|name| !sources.known.contains(**name))
        .map(|name| format!("no name {name}"))
        .collect();
    missing.sort();
    let mut held = names.len();
    if path == Path::new(QUOTING) {
        held += document.blocks.len();
        let unquoted = document.blocks.iter().filter(|block| {
            !sources
                .texts
                .iter()
                .any(|text| text.contains(block.as_str()))
        });
        missing.extend(unquoted.map(|block| format!("no statement {}", block.trim())));
    }
    for what in &missing {
        println!("{}: {what}", path.display());
    }
    Ok((held, missing.len()))
}

/// Holds every document to the sources.
fn run() -> io::Result<bool> {
    let sources = Sources::read()?;
    let mut documents = vec![PathBuf::from("README.md")];
    files_below(Path::new("docs"), &mut documents)?;
    documents.retain(|document| PAST.iter().all(|past| document != Path::new(past)));
    let (mut held, mut missing) = (0, 0);
    for document in documents {
        let (more, lost) = hold(&document, &sources)?;
        held += more;
        missing += lost;
    }
    println!("documents: {held} names and statements, {missing} of them not in the sources");
    Ok(missing == 0)
}

fn main() -> ExitCode {
    match run() {
        Ok(true) => ExitCode::SUCCESS,
        Ok(false) => ExitCode::FAILURE,
        Err(why) => {
            eprintln!("docs: {why}");
            ExitCode::FAILURE
        }
    }
}
