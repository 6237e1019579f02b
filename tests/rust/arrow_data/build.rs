//! Copies the Rust that is compared with into the build: the equal module as it stands, with `equal_range` opened, and the
//! parts of data.rs and byte_view.rs that it reads, cut out by their first and last lines. Nothing else is changed.
//!
//! The folder is named by the environment variable ARROW_DATA; without it, it is the `shared/docs/src` beside the repository.

use std::env;
use std::fs;
use std::path::{Path, PathBuf};

const EQUAL: [&str; 15] = [
    "boolean.rs",
    "byte_view.rs",
    "dictionary.rs",
    "fixed_binary.rs",
    "fixed_list.rs",
    "list.rs",
    "list_view.rs",
    "mod.rs",
    "null.rs",
    "primitive.rs",
    "run.rs",
    "structure.rs",
    "union.rs",
    "utils.rs",
    "variable_size.rs",
];

/// The accessors of `ArrayData` that the equal module reads.
const ACCESSORS: [&str; 9] = [
    "pub const fn data_type(&self)",
    "pub fn buffers(&self)",
    "pub fn child_data(&self)",
    "pub fn is_null(&self, i: usize)",
    "pub fn nulls(&self)",
    "pub const fn len(&self)",
    "pub const fn offset(&self)",
    "pub fn null_count(&self)",
    "pub fn buffer<T: ArrowNativeType>(&self, buffer: usize)",
];

fn main() {
    println!("cargo::rerun-if-env-changed=ARROW_DATA");
    let source = match env::var_os("ARROW_DATA") {
        Some(folder) => PathBuf::from(folder),
        None => Path::new(&env::var("CARGO_MANIFEST_DIR").unwrap()).join("../../../../shared/docs/src"),
    };
    let source = source.join("src");
    let made = PathBuf::from(env::var_os("OUT_DIR").unwrap());
    fs::create_dir_all(made.join("equal")).unwrap();
    for file in EQUAL {
        let mut text = read(&source.join("equal").join(file));
        if file == "mod.rs" {
            text = once(&text, "\nfn equal_range(", "\npub fn equal_range(");
        }
        write(&made.join("equal").join(file), &text);
    }
    write(&made.join("data.rs"), &data(&read(&source.join("data.rs"))));
    write(&made.join("byte_view.rs"), &byte_view(&read(&source.join("byte_view.rs"))));
    write(&made.join("modules.rs"), "pub mod byte_view;\npub mod data;\npub mod equal;\n");
}

fn data(text: &str) -> String {
    let mut parts = vec![
        "use crate::bit_iterator::BitSliceIterator;\n\
         use arrow_buffer::{ArrowNativeType, Buffer, NullBuffer};\n\
         use arrow_schema::DataType;\n"
            .to_string(),
        item(text, "pub(crate) fn contains_nulls("),
        item(text, "pub(crate) fn count_nulls("),
        item(text, "pub struct ArrayData {"),
    ];
    let accessors: Vec<_> = ACCESSORS.iter().map(|first| item(text, first)).collect();
    parts.push("impl ArrayData {\n".to_string() + &accessors.join("\n") + "}\n");
    parts.push(item(text, "pub(crate) fn get_fixed_size_binary_width("));
    parts.push("mod parts {\n    include!(concat!(env!(\"CARGO_MANIFEST_DIR\"), \"/src/parts.rs\"));\n}\n".to_string());
    parts.join("\n")
}

fn byte_view(text: &str) -> String {
    item(text, "pub struct ByteView {") + "\n" + &item(text, "impl From<u128> for ByteView {")
}

/// The lines of the one item that starts with these words, at any indentation: from its attributes to the closing brace at
/// that indentation.
fn item(text: &str, first: &str) -> String {
    let lines: Vec<_> = text.lines().collect();
    let starts: Vec<_> = (0..lines.len()).filter(|&k| lines[k].trim_start().starts_with(first)).collect();
    let [start] = starts[..] else {
        panic!("{} lines start with `{first}`", starts.len());
    };
    let indentation = &lines[start][..lines[start].len() - lines[start].trim_start().len()];
    let closing = indentation.to_string() + "}";
    let end = (start..lines.len()).find(|&k| lines[k] == closing).expect("no closing brace");
    let start = (0..start).rev().find(|&k| !lines[k].trim_start().starts_with("#[")).map_or(0, |k| k + 1);
    lines[start..=end].join("\n") + "\n"
}

fn once(text: &str, old: &str, new: &str) -> String {
    assert_eq!(text.matches(old).count(), 1, "`{old}` does not stand there once");
    text.replacen(old, new, 1)
}

fn read(path: &Path) -> String {
    println!("cargo::rerun-if-changed={}", path.display());
    fs::read_to_string(path).unwrap_or_else(|error| panic!("{}: {error}", path.display()))
}

fn write(path: &Path, text: &str) {
    fs::write(path, text).unwrap();
}
