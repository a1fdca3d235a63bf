//! A folder for a trial, outside the repository: `rt ci` refuses a checkout in which another list of
//! crates, another crate's files or a link stand.

use std::fs;
use std::ops::Deref;
use std::path::{Path, PathBuf};

/// It goes with the trial.
pub struct Apart(PathBuf);

impl Apart {
    pub fn new(name: &str) -> Self {
        let name = format!("nitrasovy {name} {}", std::process::id());
        let folder = std::env::temp_dir().join(name);
        let _ = fs::remove_dir_all(&folder);
        fs::create_dir_all(&folder).unwrap();
        Self(folder)
    }
}

impl Deref for Apart {
    type Target = Path;

    fn deref(&self) -> &Path {
        &self.0
    }
}

impl Drop for Apart {
    fn drop(&mut self) {
        let _ = fs::remove_dir_all(&self.0);
    }
}
