// Files as they are read and written, and text files as lines of words.

use std::fs::{self, File, Permissions};
use std::io::{self, Read, Write};
use std::path::Path;

/// The greatest size of a file that is read: 64 MiB.
const MAX_BYTES: u64 = 67_108_864;

/// A file by its path; `name` is how messages call it.
pub fn read_file_at(path: &Path, name: &str) -> Result<Vec<u8>, String> {
    let mut bytes = Vec::new();
    File::open(path)
        .and_then(|file| file.take(MAX_BYTES + 1).read_to_end(&mut bytes))
        .map_err(|_| format!("cannot read {name}"))?;
    if bytes.len() as u64 > MAX_BYTES {
        return Err(format!("cannot read {name}: over 64 MiB"));
    }
    Ok(bytes)
}

pub fn read_file(name: &str) -> Result<Vec<u8>, String> {
    read_file_at(Path::new(name), name)
}

pub fn read_text_file(name: &str) -> Result<String, String> {
    String::from_utf8(read_file(name)?).map_err(|_| format!("cannot read {name}"))
}

/// The greatest length of the last part of a name.
const MAX_NAME: usize = 255;

/// Under which name a file is written before it takes its own: `.new` after it, and in its folder
/// `settle.new` where the last part of the name leaves no room for that.
fn new_name(name: &str) -> String {
    let start = name.rfind('/').map_or(0, |slash| slash + 1);
    let length = name.len() - start;
    if length + ".new".len() > MAX_NAME && length <= MAX_NAME {
        format!("{}settle.new", &name[..start])
    } else {
        format!("{name}.new")
    }
}

/// Writes the new file, with the permissions of the one whose place it is to take.
fn write_new(new: &str, permissions: Option<Permissions>, bytes: &[u8]) -> io::Result<()> {
    let mut file = File::create_new(new)?;
    if let Some(permissions) = permissions {
        if file.metadata()?.permissions() != permissions {
            file.set_permissions(permissions)?;
        }
    }
    file.write_all(bytes)
}

/// Writes a file whole under its name, or not at all; one that may not be written keeps its place.
fn replace(name: &str, permissions: Option<Permissions>, bytes: &[u8]) -> io::Result<()> {
    if permissions.is_some() {
        File::options().write(true).open(name)?;
    }
    let new = new_name(name);
    let _ = fs::remove_file(&new);
    let written = write_new(&new, permissions, bytes).and_then(|()| fs::rename(&new, name));
    if written.is_err() {
        let _ = fs::remove_file(&new);
    }
    written
}

/// Where a link leads, if to something that is there.
fn end_of_link(name: &str) -> Option<String> {
    fs::canonicalize(name).ok()?.into_os_string().into_string().ok()
}

/// Writes a file whole under its name, or not at all; under a link, what it leads to. What is no plain
/// file is written as it stands, and so is a link that leads nowhere.
pub fn write_file(name: &str, bytes: &[u8]) -> Result<(), String> {
    let there = fs::metadata(name).ok();
    let is_link = fs::symlink_metadata(name).is_ok_and(|own| own.is_symlink());
    let target = if is_link { end_of_link(name) } else { Some(name.to_string()) };
    let is_plain = !name.is_empty() && there.as_ref().is_none_or(|there| there.is_file());
    let written = match target {
        Some(target) if is_plain => {
            replace(&target, there.map(|there| there.permissions()), bytes)
        }
        _ => fs::write(name, bytes),
    };
    written.map_err(|_| format!("cannot write {name}"))
}

/// A line of a text file: its number, counted from 1, and its words.
pub struct Line<'a> {
    pub number: usize,
    pub words: Vec<&'a str>,
}

/// The lines that are not passed over.
pub fn lines_of_words(text: &str) -> Vec<Line<'_>> {
    let mut lines = Vec::new();
    for (index, line) in text.lines().enumerate() {
        let words: Vec<&str> = line.split_whitespace().collect();
        if words.is_empty() || words[0].starts_with('#') {
            continue;
        }
        lines.push(Line { number: index + 1, words });
    }
    lines
}

/// A message about a line of a text file.
pub fn at_line(file: &str, number: usize, message: &str) -> String {
    format!("{file}:{number}: {message}")
}
