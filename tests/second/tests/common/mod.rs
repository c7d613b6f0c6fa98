//! What several tests use.

use std::collections::BTreeSet;
use std::ffi::OsStr;
use std::fs;
use std::path::{Path, PathBuf};

pub struct Stored {
    pub name: String,
    pub sheet: Vec<u8>,
    pub listing: Vec<u8>,
}

/// Every pair NAME.sheet, NAME.listing of a folder that is given from this package.
pub fn stored(folder: &str) -> Vec<Stored> {
    let folder = Path::new(env!("CARGO_MANIFEST_DIR")).join(folder);
    let entries = fs::read_dir(&folder).unwrap_or_else(|error| panic!("{folder:?}: {error}"));
    let paths = entries.map(|entry| entry.expect("a readable folder").path());
    let is_half = |path: &PathBuf| {
        let extension = path.extension().and_then(OsStr::to_str);
        matches!(extension, Some("sheet" | "listing"))
    };
    let names: BTreeSet<PathBuf> = paths
        .filter(is_half)
        .map(|p| p.with_extension(""))
        .collect();
    let read = |path: &Path| fs::read(path).unwrap_or_else(|error| panic!("{path:?}: {error}"));
    let pair = |name: PathBuf| Stored {
        sheet: read(&name.with_extension("sheet")),
        listing: read(&name.with_extension("listing")),
        name: name.display().to_string(),
    };
    names.into_iter().map(pair).collect()
}
