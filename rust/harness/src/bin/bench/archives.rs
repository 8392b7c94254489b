//! The archives of real tracefiles. They are not part of the repository: they are where LCOV_DATA says, as seen from its root.

use std::io;
use std::path::{Path, PathBuf};
use std::process::Command;
use std::{env, fs, process};

/// A tracefile of an archive.
pub struct File {
    pub name: String,
    pub text: Vec<u8>,
}

/// The files of an archive that are not empty, in the order of their names.
pub fn files_of(archive: &str) -> Result<Vec<File>, String> {
    let folder = Folder::new().map_err(|error| format!("no temporary folder: {error}"))?;
    let packed = data().join(format!("{archive}.tar.xz"));
    unpack(&packed, &folder)?;
    let files = read_all(&folder.0.join(archive)).map_err(|error| error.to_string())?;
    Ok(files
        .into_iter()
        .filter(|file| !file.text.is_empty())
        .collect())
}

fn data() -> PathBuf {
    let named = env::var_os("LCOV_DATA").unwrap_or_else(|| "../shared/data".into());
    Path::new(env!("CARGO_MANIFEST_DIR"))
        .join("../..")
        .join(named)
}

fn unpack(packed: &Path, folder: &Folder) -> Result<(), String> {
    if !packed.exists() {
        return Err(format!(
            "no {}; LCOV_DATA is the folder that has it",
            packed.display()
        ));
    }
    let mut tar = Command::new("tar");
    let output = tar.arg("-xJf").arg(packed).current_dir(&folder.0).output();
    match output {
        Ok(output) if output.status.success() => Ok(()),
        _ => Err(format!("no tar with xz that unpacks {}", packed.display())),
    }
}

fn read_all(folder: &Path) -> io::Result<Vec<File>> {
    let mut files = Vec::new();
    for entry in fs::read_dir(folder)? {
        let entry = entry?;
        files.push(File {
            name: entry.file_name().to_string_lossy().into_owned(),
            text: fs::read(entry.path())?,
        });
    }
    files.sort_by(|a, b| a.name.cmp(&b.name));
    Ok(files)
}

/// A new folder, which is removed in the end.
struct Folder(PathBuf);

impl Folder {
    fn new() -> io::Result<Self> {
        let folder = env::temp_dir().join(format!("bench-{}", process::id()));
        fs::create_dir(&folder)?;
        Ok(Folder(folder))
    }
}

impl Drop for Folder {
    fn drop(&mut self) {
        if let Err(error) = fs::remove_dir_all(&self.0) {
            eprintln!("bench: {}: {error}", self.0.display());
        }
    }
}
