//! Makes a copy of the ordinary Rust version for every file in `slips/`, with that file's slip, for `tests/slips.rs`.
//!
//! A slip says in its first line what is wrong, in its second which rule it breaks, `rule: FUNCTION in FILE`, and then
//! has the whole body that the function gets. So it holds on to the function's name and to nothing around it.

use std::path::{Path, PathBuf};
use std::{env, fs};

const ORIGINAL: &str = "../plain/src";

/// A slip as its file has it.
struct Slip {
    name: String,
    what: String,
    function: String,
    file: String,
    body: String,
}

fn main() {
    println!("cargo:rerun-if-changed=slips");
    println!("cargo:rerun-if-changed={ORIGINAL}");
    let out = PathBuf::from(env::var_os("OUT_DIR").expect("cargo says where to write"));
    let (mut modules, mut made, mut stale) = (String::new(), String::new(), String::new());
    for slip in slips() {
        let folder = out.join("slips").join(&slip.name);
        match copy_with(&slip, &folder) {
            Ok(()) => {
                let name = &slip.name;
                modules += &format!("#[allow(unused)]\n#[path = {:?}]\nmod {name};\n", folder.join("lib.rs"));
                made += &format!("    slip!({name}, {:?}),\n", slip.what);
            }
            Err(why) => stale += &format!("    ({:?}, {why:?}),\n", slip.name),
        }
    }
    let listing = format!(
        "{modules}
const SLIPS: &[(&str, &str, Functions)] = &[\n{made}];
/// Slips that do not apply any more, and why.
const STALE: &[(&str, &str)] = &[\n{stale}];\n"
    );
    fs::write(out.join("slips.rs"), listing).expect("the listing is written");
}

/// The slips by name, in order.
fn slips() -> Vec<Slip> {
    let mut slips: Vec<Slip> = files("slips").iter().map(|path| slip(path)).collect();
    slips.sort_by(|one, other| one.name.cmp(&other.name));
    slips
}

fn slip(path: &Path) -> Slip {
    let text = read(path);
    let parts = text.split_once("\nrule: ").and_then(|(what, rest)| {
        let (rule, body) = rest.split_once('\n')?;
        let (function, file) = rule.split_once(" in ")?;
        Some([what, function, file, body].map(str::to_string))
    });
    let [what, function, file, body] = parts.unwrap_or_else(|| panic!("{} is no slip", path.display()));
    let name = path.file_stem().expect("a name").to_string_lossy().into_owned();
    Slip { name, what, function, file, body }
}

fn copy_with(slip: &Slip, folder: &Path) -> Result<(), String> {
    let slipped = with_body(&read(&Path::new(ORIGINAL).join(&slip.file)), &slip.function, &slip.body)?;
    fs::create_dir_all(folder).expect("a folder for the copy");
    for path in files(ORIGINAL) {
        let source = if path.ends_with(&slip.file) { slipped.clone() } else { read(&path) };
        fs::write(folder.join(path.file_name().expect("a file")), source).expect("the copy is written");
    }
    Ok(())
}

/// The source with another body for the one function of that name. It is formatted, so a function's body stands between
/// the first line that ends in an opening brace and the first closing brace below the function's own first letter.
fn with_body(source: &str, function: &str, body: &str) -> Result<String, String> {
    let lines: Vec<&str> = source.lines().collect();
    let starts: Vec<usize> = (0..lines.len()).filter(|&at| declares(lines[at], function)).collect();
    let &[start] = &starts[..] else {
        return Err(format!("{} functions have the name {function}", starts.len()));
    };
    let indent = &lines[start][..lines[start].len() - lines[start].trim_start().len()];
    let opens = (start..lines.len()).find(|&at| lines[at].ends_with('{'));
    let closes = (start..lines.len()).find(|&at| lines[at].strip_prefix(indent) == Some("}"));
    let (Some(opens), Some(closes)) = (opens, closes) else {
        return Err(format!("the body of {function} has no bounds"));
    };
    Ok([&lines[..=opens], &[body.trim_end()], &lines[closes..]].concat().join("\n"))
}

/// Whether the line declares a function of that name.
fn declares(line: &str, function: &str) -> bool {
    let Some((before, after)) = line.split_once("fn ") else {
        return false;
    };
    let named = after.strip_prefix(function).is_some_and(|rest| rest.starts_with(['(', '<']));
    named && before.split_whitespace().all(|word| word.starts_with("pub") || word == "const")
}

fn files(folder: &str) -> Vec<PathBuf> {
    let entries = fs::read_dir(folder).unwrap_or_else(|error| panic!("{folder}: {error}"));
    entries.map(|entry| entry.expect("an entry").path()).collect()
}

fn read(path: &Path) -> String {
    fs::read_to_string(path).unwrap_or_else(|error| panic!("{}: {error}", path.display()))
}
