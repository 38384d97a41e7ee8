//! For build scripts: links an archive of the proved crates, and makes it first where it is missing or older than its sources.
//! The environment variable QUANTA_ARCHIVE_DIR names another folder that holds the archives; they are then taken as they are.

use std::collections::BTreeSet;
use std::fs::File;
use std::path::{Path, PathBuf};
use std::process::Command;
use std::time::SystemTime;
use std::{env, fs};

/// An archive: its name, the Rattle crate that it has the exports of, and the command that makes it.
struct Made<'a> {
    name: &'a str,
    of: &'a str,
    command: &'a [&'a str],
}

/// Tells cargo to link the desk's archive of the five calls. Its path is QUANTA_ARCHIVE for the package's own code and tests.
pub fn link_calls() {
    link_made(&Made {
        name: "quanta",
        of: "quanta_c",
        command: &["bash", "tools/staticlib", "quanta"],
    });
}

/// Tells cargo to link the archive of the lexer.
pub fn link_lexer() {
    link_made(&Made {
        name: "quanta_lexer_c",
        of: "quanta_lexer_c",
        command: &["bash", "tools/staticlib", "quanta_lexer_c"],
    });
}

/// Tells cargo to link the signing terminal's archive of the five calls.
pub fn link_terminal() {
    link_made(&Made {
        name: "quanta_terminal",
        of: "quanta_c",
        command: &["bash", "tools/terminal"],
    });
}

fn link_made(made: &Made) {
    println!("cargo::rerun-if-env-changed=QUANTA_ARCHIVE_DIR");
    let found = match env::var_os("QUANTA_ARCHIVE_DIR") {
        Some(dir) => lent_archive(&PathBuf::from(dir), made.name),
        None => own_archive(made),
    };
    match found {
        Ok(archive) => tell(&archive, made.name),
        Err(message) => println!("cargo::error={message}"),
    }
}

fn tell(archive: &Path, name: &str) {
    let dir = archive.parent().expect("an archive lies in a folder");
    println!("cargo::rerun-if-changed={}", archive.display());
    println!("cargo::rustc-env=QUANTA_ARCHIVE={}", archive.display());
    println!("cargo::rustc-link-search=native={}", dir.display());
    println!("cargo::rustc-link-lib=static={name}");
}

fn lent_archive(dir: &Path, name: &str) -> Result<PathBuf, String> {
    let archive = dir.join(format!("lib{name}.a"));
    if !archive.is_file() {
        return Err(format!(
            "QUANTA_ARCHIVE_DIR is set, but there is no {}",
            archive.display()
        ));
    }
    Ok(archive)
}

// The archive of the repository that this package is part of.
fn own_archive(made: &Made) -> Result<PathBuf, String> {
    let root = Path::new(env!("CARGO_MANIFEST_DIR")).join("../..");
    let archive = root.join(format!("target/staticlib/lib{}.a", made.name));
    let mut newest = SystemTime::UNIX_EPOCH;
    for reached in reached(&root, made.of)? {
        // What rt keeps of its own stands beside these.
        for part in ["src", "specs", "proofs"] {
            let folder = root.join("crates").join(&reached).join(part);
            if folder.is_dir() {
                println!("cargo::rerun-if-changed={}", folder.display());
                newest = newest.max(newest_in(&folder)?);
            }
        }
    }
    // Build scripts run beside each other, rt in a repository only once at a time.
    let lock = root.join("target/archive.lock");
    let locked = fs::create_dir_all(root.join("target"))
        .and_then(|()| File::create(&lock))
        .and_then(|file| file.lock().map(|()| file));
    let _locked = locked.map_err(|error| format!("cannot lock {}: {error}", lock.display()))?;
    let since = fs::metadata(&archive).and_then(|data| data.modified());
    if since.is_err() || since.is_ok_and(|since| since < newest) {
        make(&root, made)?;
    }
    Ok(archive)
}

// The crate and those of the repository that it depends on, by crates.txt.
fn reached(root: &Path, name: &str) -> Result<BTreeSet<String>, String> {
    let path = root.join("crates.txt");
    println!("cargo::rerun-if-changed={}", path.display());
    let listed = fs::read_to_string(&path).map_err(|error| unreadable(&path, &error))?;
    let lines: Vec<_> = listed.lines().filter_map(|l| l.split_once(':')).collect();
    // A static library has a second word before the colon.
    let called = |line: &str, name: &str| line.split_whitespace().next() == Some(name);
    let mut reached = BTreeSet::new();
    let mut open = vec![name];
    while let Some(next) = open.pop() {
        let Some((_, needs)) = lines.iter().find(|(known, _)| called(known, next)) else {
            continue;
        };
        if reached.insert(next.to_string()) {
            open.extend(needs.split_whitespace());
        }
    }
    if reached.is_empty() {
        return Err(format!("crates.txt does not list {name}"));
    }
    Ok(reached)
}

fn newest_in(folder: &Path) -> Result<SystemTime, String> {
    let read = || -> std::io::Result<SystemTime> {
        let mut newest = SystemTime::UNIX_EPOCH;
        let mut open = vec![folder.to_path_buf()];
        while let Some(folder) = open.pop() {
            for entry in fs::read_dir(folder)? {
                let entry = entry?;
                let data = entry.metadata()?;
                newest = newest.max(data.modified()?);
                if data.is_dir() {
                    open.push(entry.path());
                }
            }
        }
        Ok(newest)
    };
    read().map_err(|error| unreadable(folder, &error))
}

fn unreadable(path: &Path, error: &std::io::Error) -> String {
    format!("cannot read {}: {error}", path.display())
}

fn make(root: &Path, made: &Made) -> Result<(), String> {
    let ran = Command::new(made.command[0])
        .args(&made.command[1..])
        .current_dir(root)
        .output();
    let said = made.command.join(" ");
    let output = ran.map_err(|error| {
        format!(
            "the archive {} is missing or old, and `{said}`, which makes it, does not start: {error}",
            made.name
        )
    })?;
    if !output.status.success() {
        eprint!("{}", String::from_utf8_lossy(&output.stdout));
        eprint!("{}", String::from_utf8_lossy(&output.stderr));
        return Err(format!("`{said}` failed; what it said is above"));
    }
    Ok(())
}
