//! Writes the stored keys that E7 changes to a file, or checks the file.

use std::fs;
use std::path::Path;
use std::process::ExitCode;

use reference::changed_keys::{
    first_differing_line, key_of_list, keys_of_blocks, keys_of_cases, text_of_parts, Part,
    StoredKey, BLOCKS_BEFORE, CASES_BEFORE, LISTS_BEFORE,
};
use reference::program::run_with_arguments;

const USAGE: &str = "usage: changed FOLDER
       changed --check FOLDER";

/// Files and a folder of files, below the folder that is given.
const LISTS: &str = "lists";
const BLOCKS: &str = "crates/keys/stdin";
const CASES: &str = "crates/vectors/stdin";
const CHANGED: &str = "docs/changed-keys.txt";

/// The bytes of a file below a folder.
fn read(folder: &Path, name: &str) -> Result<Vec<u8>, String> {
    fs::read(folder.join(name)).map_err(|error| format!("{name}: {error}"))
}

/// The text of a file below a folder.
fn read_text(folder: &Path, name: &str) -> Result<String, String> {
    String::from_utf8(read(folder, name)?).map_err(|error| format!("{name}: {error}"))
}

/// The keys of the lists below a folder.
fn keys_of_lists(folder: &Path) -> Result<Vec<StoredKey>, String> {
    let mut keys = Vec::new();
    for list in LISTS_BEFORE {
        let name = format!("{LISTS}/{list}.txt");
        keys.extend(key_of_list(&name, &read_text(folder, &name)?)?);
    }
    Ok(keys)
}

/// The text about all stored keys below a folder.
fn text(folder: &Path) -> Result<String, String> {
    Ok(text_of_parts(&[
        Part {
            title: format!("{LISTS}/"),
            keys: keys_of_lists(folder)?,
        },
        Part {
            title: format!("{BLOCKS}, blocks 0 to {}", BLOCKS_BEFORE - 1),
            keys: keys_of_blocks(BLOCKS, &read(folder, BLOCKS)?),
        },
        Part {
            title: format!("{CASES}, cases 0 to {}", CASES_BEFORE - 1),
            keys: keys_of_cases(CASES, &read(folder, CASES)?)?,
        },
    ]))
}

/// Does what the command line asks for.
fn run(arguments: &[&str]) -> Result<(), String> {
    match arguments {
        ["--check", folder] => {
            let folder = Path::new(folder);
            let found = read_text(folder, CHANGED)?;
            match first_differing_line(&found, &text(folder)?) {
                Some(difference) => Err(format!("{CHANGED}: {difference}")),
                None => Ok(()),
            }
        }
        [folder] => {
            let folder = Path::new(folder);
            let written = fs::write(folder.join(CHANGED), text(folder)?);
            written.map_err(|error| format!("{CHANGED}: {error}"))
        }
        _ => Err(USAGE.to_string()),
    }
}

fn main() -> ExitCode {
    run_with_arguments(run)
}
