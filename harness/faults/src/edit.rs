//! A copy of the Rust in which a number in the environment, FAULT, says which fault it has; none with 0.
use crate::list::FAULTS;
use std::fs;
use std::path::Path;

/// Which fault it is, added to the copy.
const SWITCH: &str = "
pub mod fault {
    static FAULT: std::sync::OnceLock<usize> = std::sync::OnceLock::new();
    pub fn is(number: usize) -> bool {
        let asked = || std::env::var(\"FAULT\").map_or(0, |n| n.parse().expect(\"a number\"));
        *FAULT.get_or_init(asked) == number
    }
}
";

/// Copies the crate `from` to `to`, with every fault in it.
pub fn copy(from: &Path, to: &Path) -> Result<(), String> {
    copy_folder(from, to, Path::new(""))
}

fn copy_folder(from: &Path, to: &Path, below: &Path) -> Result<(), String> {
    let failed = |e: std::io::Error| format!("{}: {e}", from.join(below).display());
    fs::create_dir_all(to.join(below)).map_err(failed)?;
    for entry in fs::read_dir(from.join(below)).map_err(failed)? {
        let entry = entry.map_err(failed)?;
        let file = below.join(entry.file_name());
        if entry.path().is_dir() {
            copy_folder(from, to, &file)?;
            continue;
        }
        let text = fs::read_to_string(entry.path()).map_err(failed)?;
        let edited = edited(&file, text)?;
        // what is equal is left alone, so that nothing is built twice
        let there = fs::read_to_string(to.join(&file));
        if there.ok().as_ref() != Some(&edited) {
            fs::write(to.join(&file), edited).map_err(failed)?;
        }
    }
    Ok(())
}

/// A file's text with its faults. Each must stand where the list says.
fn edited(file: &Path, mut text: String) -> Result<String, String> {
    if file == Path::new("src/lib.rs") {
        return Ok(text + SWITCH);
    }
    for (fault, number) in FAULTS.iter().zip(1..) {
        if file != Path::new("given/samplerplustree").join(fault.file) {
            continue;
        }
        let mut places = text.match_indices(fault.from);
        let Some((place, _)) = places.nth(fault.nth) else {
            return Err(format!("{} has no '{}'", file.display(), fault.from));
        };
        let (from, to) = (fault.from, fault.to);
        let both = format!("(if crate::fault::is({number}) {{ {to} }} else {{ {from} }})");
        text.replace_range(place..place + from.len(), &both);
    }
    Ok(text)
}
