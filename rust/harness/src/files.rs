//! The recorded files below tests/.

use std::collections::BTreeMap;
use std::path::PathBuf;
use std::{fs, io};

pub fn file(name: &str) -> PathBuf {
    PathBuf::from(env!("CARGO_MANIFEST_DIR"))
        .join("../../tests")
        .join(name)
}

/// Each file's name and what it holds.
pub type Files = BTreeMap<String, Vec<u8>>;

pub fn files_in(folder: &str) -> io::Result<Files> {
    let mut files = Files::new();
    for entry in fs::read_dir(file(folder))? {
        let entry = entry?;
        let name = entry.file_name().to_string_lossy().into_owned();
        files.insert(name, fs::read(entry.path())?);
    }
    Ok(files)
}

pub fn write_in(folder: &str, files: &Files) -> io::Result<()> {
    let folder = file(folder);
    fs::create_dir_all(&folder)?;
    for (name, bytes) in files {
        fs::write(folder.join(name), bytes)?;
    }
    Ok(())
}
