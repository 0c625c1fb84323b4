//! Lays the unchanged files out in the build folder, each at its module path,
//! and appends to three of them the line that declares our child module (see
//! SOURCES). With the feature `counted` each arm of their matches also gets a
//! call that counts it; with the feature `limited` the resolver gets the calls
//! of limit_calls.rs.

mod limit_calls;

use std::env;
use std::fs;
use std::path::{Path, PathBuf};

const RESOLVER: &str = "xform_resolve_initial_values/resolver.rs";

/// The unchanged files, and the child module that is appended to some.
const FILES: [(&str, Option<&str>); 9] = [
    ("enumeration_members.rs", Some("members.rs")),
    ("intermediates/string.rs", None),
    ("semantic_type.rs", None),
    ("type_attributes.rs", None),
    ("value_range.rs", None),
    ("xform_resolve_initial_values.rs", Some("folder.rs")),
    (RESOLVER, Some("resolver.rs")),
    ("xform_resolve_initial_values/scalar.rs", None),
    ("xform_resolve_initial_values/value.rs", None),
];

/// The modules of the unchanged files, as lib.rs includes them. A module that
/// is declared here is looked for in the build folder.
const MODULES: &str = "\
pub mod enumeration_members;
pub mod intermediates {
    pub use crate::enumeration;
    pub mod string;
}
pub mod semantic_type;
pub mod type_attributes;
pub mod value_range;
pub mod xform_resolve_initial_values;
";

/// The functions whose matches are counted in the file that holds the folder.
/// The others there make the results of functions, which no file has.
const COUNTED_IN_FOLDER: [&str; 3] = ["retyped", "shape_of", "fold_var_decl"];

fn main() {
    let package = PathBuf::from(env::var("CARGO_MANIFEST_DIR").expect("cargo sets it"));
    let oracle = package.parent().expect("the package stands in oracle/");
    let out = PathBuf::from(env::var("OUT_DIR").expect("cargo sets it"));
    let is_counted = env::var("CARGO_FEATURE_COUNTED").is_ok();
    let is_limited = env::var("CARGO_FEATURE_LIMITED").is_ok();
    if is_counted && is_limited {
        panic!("the features `counted` and `limited` go into separate builds");
    }

    let mut table = String::new();
    let mut counted = 0;
    for (file, child) in FILES {
        let mut source = read(&oracle.join("ironplc").join(file));
        if is_limited && file == RESOLVER {
            source = limit_calls::with_limit(&source).unwrap_or_else(|error| panic!("{error}"));
        }
        let arms = match is_counted {
            true => counted_arms(file, &source),
            false => Vec::new(),
        };
        let mut copy = arms::with_calls(&source, &arms, |place| {
            format!("crate::count::reach({})", counted + place)
        });
        for arm in &arms {
            let (line, function, pattern) = (arm.line, &arm.function, &arm.pattern);
            table += &format!("    ({file:?}, {line}, {function:?}, {pattern:?}),\n");
        }
        counted += arms.len();
        if let Some(child) = child {
            let path = oracle.join("analyzer/src/access").join(child);
            copy += &format!("#[path = {path:?}] pub(crate) mod access;\n");
        }
        write(&out.join(file), &copy);
    }
    write(&out.join("modules.rs"), MODULES);
    write(&out.join("arms.rs"), &format!("[\n{table}]"));

    println!(
        "cargo:rerun-if-changed={}",
        oracle.join("ironplc").display()
    );
    println!("cargo:rerun-if-changed=../analyzer/build.rs");
    println!("cargo:rerun-if-changed=../analyzer/limit_calls.rs");
}

/// The arms of `file` that are counted.
fn counted_arms(file: &str, source: &str) -> Vec<arms::Arm> {
    let mut arms = match file.starts_with("xform_resolve_initial_values") {
        true => arms::find(source),
        false => Vec::new(),
    };
    if file == "xform_resolve_initial_values.rs" {
        arms.retain(|arm| COUNTED_IN_FOLDER.contains(&arm.function.as_str()));
    }
    arms
}

fn read(path: &Path) -> String {
    fs::read_to_string(path).unwrap_or_else(|error| panic!("{}: {error}", path.display()))
}

fn write(path: &Path, text: &str) {
    let folder = path.parent().expect("a file stands in a folder");
    fs::create_dir_all(folder).expect("the build folder can be written");
    fs::write(path, text).expect("the build folder can be written");
}
