//! No module imports back, directly or by way of others, and no folder does:
//! what is read first rests on nothing that comes after it.

use std::collections::{BTreeMap, BTreeSet};
use std::path::Path;

/// Each module with its code, the comments left out.
type Modules = BTreeMap<String, String>;
/// Each module with those it imports from; the root is the empty name.
type Imports = BTreeMap<String, BTreeSet<String>>;

/// Adds the modules of this folder.
fn read(folder: &Path, name: &str, found: &mut Modules) {
    for place in std::fs::read_dir(folder).expect("the folder can be read") {
        let path = place.expect("its places too").path();
        let stem = path.file_stem().and_then(|stem| stem.to_str());
        let own = match stem.expect("a module has a name") {
            "mod" | "lib" => name.to_string(),
            "bin" => continue,
            stem => joined(name, stem),
        };
        if path.is_dir() {
            read(&path, &own, found);
        } else {
            let text = std::fs::read_to_string(&path).expect("a module can be read");
            let code = text.lines().filter(|line| !line.trim().starts_with("//"));
            found.insert(own, code.map(|line| format!("\n{line}")).collect());
        }
    }
}

/// The name of a module that stands under another.
fn joined(above: &str, name: &str) -> String {
    match above {
        "" => name.to_string(),
        _ => format!("{above}::{name}"),
    }
}

/// The paths that a `use` names, its braces opened.
fn opened(path: &str) -> Vec<String> {
    let (before, inside) = path.split_once('{').unwrap_or(("", path));
    assert!(!inside.contains('{'), "braces within braces: {path}");
    let parts = inside.trim_end_matches('}').split(',').map(str::trim);
    let named = parts.map(|part| part.split(" as ").next().unwrap_or_default());
    named.map(|part| format!("{before}{part}")).collect()
}

/// The longest part of a path that is a module.
fn module(path: &str, modules: &Modules) -> String {
    let longest = path.rmatch_indices("::").map(|(end, _)| &path[..end]);
    let found = std::iter::once(path)
        .chain(longest)
        .find(|part| modules.contains_key(*part));
    found.unwrap_or_default().to_string()
}

/// The module that this one stands under, and its name there.
fn parts(own: &str) -> (&str, &str) {
    own.rsplit_once("::").unwrap_or(("", own))
}

/// The modules that the code names in a `use`.
fn used(own: &str, code: &str, modules: &Modules) -> BTreeSet<String> {
    let mut found = BTreeSet::new();
    let code = code.replace("\npub use ", "\nuse ");
    for (number, statement) in code.split("\nuse ").enumerate() {
        let (path, rest) = match number {
            0 => ("", statement),
            _ => statement.split_once(';').expect("a use has an end"),
        };
        let elsewhere = rest.contains("crate::") || rest.contains("super::");
        assert!(!elsewhere, "{own} names a module without a use");
        for path in opened(path) {
            if let Some(path) = path.strip_prefix("crate::") {
                found.insert(module(path, modules));
            } else if let Some(path) = path.strip_prefix("super::") {
                found.insert(module(&joined(parts(own).0, path), modules));
            }
        }
    }
    found
}

/// The modules that stand under this one and that its code goes into.
fn entered(own: &str, code: &str, modules: &Modules) -> BTreeSet<String> {
    let goes_on = |letter: char| letter.is_alphanumeric() || letter == '_' || letter == ':';
    let enters = |name: &str| {
        let into = format!("{name}::");
        let mut places = code.match_indices(&into);
        places.any(|(at, _)| !code[..at].ends_with(goes_on))
    };
    let under = modules.keys().filter(|name| {
        let (above, last) = parts(name);
        above == own && enters(last)
    });
    under.cloned().collect()
}

/// The modules that this one imports from.
fn imports(own: &str, code: &str, modules: &Modules) -> BTreeSet<String> {
    let mut found = used(own, code, modules);
    found.extend(entered(own, code, modules));
    found.remove(own);
    found
}

/// All modules of the library.
fn library() -> Imports {
    let mut modules = Modules::new();
    let source = Path::new(env!("CARGO_MANIFEST_DIR")).join("src");
    read(&source, "", &mut modules);
    let each = modules.iter();
    each.map(|(own, code)| (own.clone(), imports(own, code, &modules)))
        .collect()
}

/// What is left when the modules that import from none that is left are taken
/// away again and again: those that import back, and those that rest on them.
fn importing_back(mut left: Imports) -> Vec<String> {
    loop {
        let names: BTreeSet<String> = left.keys().cloned().collect();
        left.retain(|_, imports| !imports.is_disjoint(&names));
        if left.len() == names.len() {
            return names.into_iter().collect();
        }
    }
}

#[test]
fn no_module_imports_back() {
    let library = library();
    assert!(library["compare::questions"].contains("making::asking"));
    assert!(library["stored"].contains("stored::judged"));
    assert_eq!(importing_back(library), Vec::<String>::new());
}

#[test]
fn no_folder_imports_back() {
    let mut folders = Imports::new();
    let first = |name: &str| name.split("::").next().unwrap_or_default().to_string();
    for (own, imports) in library() {
        let from = imports.iter().map(|name| first(name));
        let others = from.filter(|name| *name != first(&own));
        folders.entry(first(&own)).or_default().extend(others);
    }
    assert!(folders["compare"].contains("making"));
    assert_eq!(importing_back(folders), Vec::<String>::new());
}
