//! Cases with a known output: the inputs stored in a folder, each `NAME.in` with its `NAME.out`.

use std::fs;
use std::io;
use std::path::Path;

pub struct Case {
    pub name: String,
    pub input: Vec<u8>,
    pub expected: Vec<u8>,
}

/// The cases of a folder by name. A missing output is an error, and so is a folder without any case.
pub fn read_folder(folder: &Path) -> io::Result<Vec<Case>> {
    let mut cases = Vec::new();
    for entry in fs::read_dir(folder)? {
        let path = entry?.path();
        if path.extension().is_some_and(|extension| extension == "in") {
            cases.push(Case {
                name: path
                    .file_stem()
                    .unwrap_or_default()
                    .to_string_lossy()
                    .into_owned(),
                input: fs::read(&path)?,
                expected: fs::read(path.with_extension("out"))?,
            });
        }
    }
    if cases.is_empty() {
        return Err(io::Error::new(io::ErrorKind::NotFound, "no stored cases"));
    }
    cases.sort_by(|one, other| one.name.cmp(&other.name));
    Ok(cases)
}
