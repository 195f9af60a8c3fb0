//! The published examples, in the folder `examples` of the repository: NAME.txt in the notation,
//! NAME.sub the submission, NAME.out what `verdict` prints. And published programs over the registers of
//! these: NAME.program in the notation, with `# Over` and the name of the submission first, and NAME.back
//! what it is read back to.

use std::fs;
use std::path::PathBuf;

use crate::bodies::Bodies;
use crate::notation::assemble_program;

fn folder() -> PathBuf {
    PathBuf::from(concat!(env!("CARGO_MANIFEST_DIR"), "/../examples"))
}

/// The names of all examples, sorted.
pub fn names() -> Vec<String> {
    named(".txt")
}

/// The names of all files with this ending, without it, sorted.
fn named(ending: &str) -> Vec<String> {
    let entries = fs::read_dir(folder()).expect("the folder of examples");
    let mut names: Vec<String> = entries
        .filter_map(|entry| entry.expect("an entry of the folder").file_name().into_string().ok())
        .filter_map(|file| file.strip_suffix(ending).map(str::to_string))
        .collect();
    names.sort();
    names
}

/// Where the file of an example with this extension is.
pub fn path(name: &str, extension: &str) -> PathBuf {
    folder().join(format!("{name}.{extension}"))
}

/// What that file holds.
pub fn file(name: &str, extension: &str) -> Vec<u8> {
    let path = path(name, extension);
    fs::read(&path).unwrap_or_else(|error| panic!("{}: {error}", path.display()))
}

/// What that file holds, as a text.
pub fn text(name: &str, extension: &str) -> String {
    String::from_utf8(file(name, extension)).expect("a text")
}

pub fn submission(name: &str) -> Vec<u8> {
    file(name, "sub")
}

/// A published program.
pub struct Program {
    pub name: String,
    /// The name of the example over whose registers it is.
    pub over: String,
    pub bytes: Vec<u8>,
}

impl Program {
    fn named(name: String) -> Program {
        let text = text(&name, "program");
        let over = text.lines().next().and_then(|line| line.strip_prefix("# Over "));
        let over = over.unwrap_or_else(|| panic!("{name}: over which example?")).to_string();
        let bodies = Bodies::read(&submission(&over)).expect("it has its bodies");
        let bytes = assemble_program(&text, bodies.first_written())
            .unwrap_or_else(|fault| panic!("{name}: {fault}"));
        Program { name, over, bytes }
    }
}

/// All programs, sorted by name.
pub fn programs() -> Vec<Program> {
    named(".program").into_iter().map(Program::named).collect()
}
