//! The proved program, started as its starter does: the command, its word and its rule's as arguments, the file on descriptor 3, the terms on standard input.

use crate::{readable, Question};
use std::fs::{self, File};
use std::path::PathBuf;
use std::process::Command;

pub struct Program {
    words: Vec<String>,
    folder: PathBuf,
}

impl Program {
    /// The program that these words start.
    pub fn new(words: Vec<String>) -> Self {
        assert!(!words.is_empty(), "the words that start the program");
        let folder = std::env::temp_dir().join(format!("commands.{}", std::process::id()));
        fs::create_dir(&folder).expect("a folder for what the program reads");
        Program { words, folder }
    }

    /// What it prints, without the full stop that ends each of its answers.
    pub fn ask(&mut self, question: &Question) -> String {
        let (file, terms) = (self.folder.join("file"), self.folder.join("terms"));
        fs::write(&file, &question.file).expect("a file");
        fs::write(&terms, &question.terms).expect("a file");
        // Rust opens no descriptor by its number, and a shell does.
        let mut command = Command::new("sh");
        command.args(["-c", "exec 3<\"$0\" \"$@\""]).arg(&file);
        command.args(&self.words).arg(question.command);
        command.args([&question.word, question.rule.word()]);
        command.stdin(File::open(&terms).expect("a file"));
        let output = command.output().expect("the program starts");
        match output.stdout.split_last() {
            Some((b'.', answer)) if output.status.success() => readable(answer),
            _ => format!("no answer, {}: {output:?}", output.status),
        }
    }
}

impl Drop for Program {
    fn drop(&mut self) {
        // A folder that stays behind is no reason to fail.
        let _ = fs::remove_dir_all(&self.folder);
    }
}
