//! A file of recorded cases as it grows, and the counts that are printed of it.

use crate::tally::Tally;
use std::path::Path;
use std::{fs, io};

#[derive(Default)]
pub struct Recording {
    pub text: String,
    kinds: Tally,
    /// What is special in the cases, whatever their kind.
    pub marks: Tally,
}

impl Recording {
    /// Counts one case of a kind.
    pub fn count(&mut self, kind: &'static str) {
        self.kinds.count("all");
        self.kinds.count(kind);
    }

    /// Writes the text into the folder, and prints a line for each kind and each mark.
    pub fn finish(self, folder: &Path, name: &str) -> io::Result<()> {
        let marks = self.marks.lines(&format!("{name} with"));
        print!("{}{marks}", self.kinds.lines(name));
        fs::write(folder.join(format!("{name}.txt")), self.text)
    }
}
