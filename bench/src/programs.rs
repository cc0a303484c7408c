//! The program `book` and the same in plain Rust, each run as a process on a file.

use std::fs::{self, File};
use std::path::{Path, PathBuf};
use std::process::Command;

/// A program, the file that it reads and the file that it writes.
pub struct Program {
    command: Vec<PathBuf>,
    input: PathBuf,
    output: PathBuf,
}

impl Program {
    fn new(command: Vec<PathBuf>, input: &Path, output: &str) -> Self {
        Program {
            command,
            input: input.to_path_buf(),
            output: input.with_file_name(output),
        }
    }

    /// One run, from the start of the process to its end.
    pub fn run(&self) {
        let status = Command::new(&self.command[0])
            .args(&self.command[1..])
            .stdin(File::open(&self.input).expect("the list is there"))
            .stdout(File::create(&self.output).expect("the output can be written"))
            .status();
        assert!(status.expect("the program starts").success());
    }

    fn output(&self) -> Vec<u8> {
        self.run();
        fs::read(&self.output).expect("the program wrote its output")
    }
}

/// The two programs on a list that is written to this folder. The library's comes first.
pub fn programs(folder: &Path, list: &[u8]) -> [Program; 2] {
    let input = folder.join("orders");
    fs::write(&input, list).expect("the list can be written");
    let book = Path::new(env!("CARGO_MANIFEST_DIR")).join("../crates/book/out/book");
    let bench = std::env::current_exe().expect("this program has a name");
    [
        Program::new(vec![book], &input, "library"),
        Program::new(vec![bench, "book".into()], &input, "plain"),
    ]
}

/// Both print the same for a list. Answers how many bytes.
pub fn compare(folder: &Path, list: &[u8]) -> usize {
    let [library, plain] = programs(folder, list).map(|program| program.output());
    assert!(library == plain, "the outputs differ");
    library.len()
}
