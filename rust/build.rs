//! Links the library, turns the list of sizes and offsets that the C side is held to into
//! assertions about the structs of this crate, and the list of refusals into the lines of an enum.

use std::env;
use std::fs;
use std::path::{Path, PathBuf};
use std::process::{self, Command};

fn main() {
    let here = PathBuf::from(env::var_os("CARGO_MANIFEST_DIR").expect("set by cargo"));
    link(&here);
    let lists = here.join("include");
    let (layout, listed) = ("jespurla_layout.def", "jespurla_refusals.def");
    write("layout.rs", &assertions(&read(&lists, layout)));
    write("refusals.rs", &refusals(&read(&lists, listed)));
    println!("cargo:rerun-if-changed=build.rs");
}

// ---- The library

/// Tells cargo where the library is, or says in which places it was looked for.
fn link(here: &Path) {
    println!("cargo:rerun-if-env-changed=JESPURLA_LIB_DIR");
    println!("cargo:rerun-if-env-changed=PKG_CONFIG_PATH");
    let folder = folder(here).unwrap_or_else(|| {
        eprintln!("{NOT_FOUND}");
        process::exit(1)
    });
    println!("cargo:rerun-if-changed={}", archive(&folder).display());
    println!("cargo:rustc-link-search=native={}", folder.display());
    println!("cargo:rustc-link-lib=static=jespurla");
}

const NOT_FOUND: &str = concat!(
    "libjespurla.a, version ",
    env!("CARGO_PKG_VERSION"),
    ", is not found. One of these finds it:
 - the environment variable JESPURLA_LIB_DIR, the folder that has it; where it is set, it decides;
 - pkg-config, where the library is installed: `pkg-config --variable=libdir jespurla`;
 - the folder build/ of the repository, where tools/archive puts it."
);

/// The folder of the library: the one that JESPURLA_LIB_DIR names, else that of pkg-config, else
/// the folder build/ of the repository.
fn folder(here: &Path) -> Option<PathBuf> {
    if let Some(given) = env::var_os("JESPURLA_LIB_DIR") {
        return with_archive(PathBuf::from(given));
    }
    let installed = installed().and_then(with_archive);
    installed.or_else(|| with_archive(here.join("../build")))
}

fn archive(folder: &Path) -> PathBuf {
    folder.join("libjespurla.a")
}

/// The folder, where the library is in it.
fn with_archive(folder: PathBuf) -> Option<PathBuf> {
    archive(&folder).is_file().then_some(folder)
}

/// The folder that pkg-config gives, where it knows the library in a version for this crate: until
/// 1.0.0 the first two numbers have to be the same.
fn installed() -> Option<PathBuf> {
    let (version, wanted) = (pkg_config("--modversion")?, env!("CARGO_PKG_VERSION"));
    let first_two = |version: &str| version.rsplit_once('.').map(|(two, _)| two.to_owned());
    if first_two(&version) != first_two(wanted) {
        return None;
    }
    pkg_config("--variable=libdir").map(PathBuf::from)
}

/// What pkg-config says of the library, where it is there and knows it.
fn pkg_config(question: &str) -> Option<String> {
    let mut asked = Command::new("pkg-config");
    let told = asked.args([question, "jespurla"]).output().ok()?;
    let text = String::from_utf8(told.stdout).ok()?;
    told.status.success().then(|| text.trim().to_owned())
}

// ---- The lists

/// The text of a list.
fn read(folder: &Path, name: &str) -> String {
    let list = folder.join(name);
    println!("cargo:rerun-if-changed={}", list.display());
    fs::read_to_string(&list).unwrap_or_else(|why| panic!("{}: {why}", list.display()))
}

/// Writes a source file that the crate includes.
fn write(name: &str, text: &str) {
    let folder = PathBuf::from(env::var_os("OUT_DIR").expect("set by cargo"));
    fs::write(folder.join(name), text).expect("room for a file");
}

/// An assertion for each line of the list of sizes and offsets.
fn assertions(list: &str) -> String {
    list.lines().filter_map(assertion).collect()
}

/// The assertion that a line stands for; comments, which have no parentheses, stand for none.
fn assertion(line: &str) -> Option<String> {
    let (macro_name, rest) = line.split_once('(')?;
    let words: Vec<&str> = rest.trim_end_matches(')').split(", ").collect();
    let facts = match (macro_name, &words[..]) {
        ("STRUCT", [name, size, align]) => {
            let of = camel_case(name.trim_start_matches("jespurla_"));
            format!("size_of::<{of}>() == {size} && align_of::<{of}>() == {align}")
        }
        // Tuple structs, whose one field has a name in C alone.
        ("FIELD", ["jespurla_moment", _, offset]) => format!("offset_of!(Moment, 0) == {offset}"),
        ("FIELD", ["jespurla_span", _, offset]) => format!("offset_of!(Span, 0) == {offset}"),
        ("FIELD", [name, field, offset]) => {
            let of = camel_case(name.trim_start_matches("jespurla_"));
            format!("offset_of!({of}, {field}) == {offset}")
        }
        _ => panic!("unknown line {line}"),
    };
    Some(format!("const _: () = assert!({facts});\n"))
}

/// The list of refusals as src/refusal.rs reads it: `refusals! { 1 Packet "..", }`.
fn refusals(list: &str) -> String {
    let lines: String = list.lines().filter_map(refusal).collect();
    format!("refusals! {{\n{lines}}}\n")
}

/// The number, the name and the text of a line; comments have no macro's name before a parenthesis.
fn refusal(line: &str) -> Option<String> {
    let inside = line.strip_prefix("JESPURLA_REFUSAL(")?.strip_suffix(')')?;
    let mut words = inside.splitn(3, ", ");
    let mut word = || {
        words
            .next()
            .unwrap_or_else(|| panic!("unknown line {line}"))
    };
    let (number, name, text) = (word(), camel_case(word()), word());
    Some(format!("    {number} {name} {text},\n"))
}

/// The name in Rust's form: lease_answer and LEASE_ANSWER are LeaseAnswer.
fn camel_case(name: &str) -> String {
    let words = name.split('_');
    words
        .map(|word| word[..1].to_uppercase() + &word[1..].to_lowercase())
        .collect()
}
