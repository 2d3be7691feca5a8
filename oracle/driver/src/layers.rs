//! Holds the files to their layers: each uses its own layer and those before it, and none is used in turn by a file
//! that it uses. `cargo test` reads the files for it.

use std::collections::{BTreeMap, BTreeSet};
use std::fs;
use std::path::Path;

/// The files by their modules' names, `groups::patch` or for a folder's mod.rs `groups`.
fn files(folder: &Path, prefix: &str, texts: &mut BTreeMap<String, String>) {
    for file in fs::read_dir(folder).unwrap().map(Result::unwrap) {
        let name = file.file_name().into_string().unwrap();
        let module = format!("{prefix}{}", name.trim_end_matches(".rs"));
        if file.path().is_dir() {
            files(&file.path(), &format!("{module}::"), texts);
        } else {
            let text = fs::read_to_string(file.path()).unwrap();
            texts.insert(module.trim_end_matches("::mod").to_string(), text);
        }
    }
}

/// The modules that a text uses: those of its `crate::` paths, and those that it declares, on top of which it stands.
fn uses(module: &str, text: &str, all: &BTreeMap<String, String>) -> BTreeSet<String> {
    let declared = text.lines().filter_map(|line| line.strip_prefix("pub mod "));
    let mut used: BTreeSet<String> = declared.map(|name| format!("{module}::{}", name.trim_end_matches(';'))).collect();
    for path in text.split("crate::").skip(1) {
        let end = path.find(|c: char| !c.is_alphanumeric() && c != '_' && c != ':').unwrap_or(path.len());
        let (path, rest) = path.split_at(end);
        let list = rest.strip_prefix('{').and_then(|list| list.split_once('}')).map_or("", |(list, _)| list);
        for name in list.split(',') {
            let mut whole = format!("{path}{}", name.trim());
            while !all.contains_key(&whole) {
                whole.truncate(whole.rfind("::").expect("a path names a file"));
            }
            used.insert(whole);
        }
    }
    used
}

#[test]
fn no_circles() {
    let mut texts = BTreeMap::new();
    let folder = std::env::var("CARGO_MANIFEST_DIR").unwrap();
    files(&Path::new(&folder).join("src"), "", &mut texts);
    let main = texts.remove("main").unwrap();
    texts.remove("layers");
    let layers: Vec<&str> = main.lines().filter_map(|line| line.strip_prefix("mod ")?.split(';').next()).collect();
    let layer = |module: &str| layers.iter().position(|layer| module.split("::").next() == Some(layer)).unwrap();
    let mut left: BTreeMap<String, BTreeSet<String>> =
        texts.iter().map(|(module, text)| (module.clone(), uses(module, text, &texts))).collect();
    for (module, used) in &left {
        let later: Vec<&String> = used.iter().filter(|other| layer(other) > layer(module)).collect();
        assert!(later.is_empty(), "{module} uses {later:?} of a later layer");
    }
    // What uses nothing that is left can go, and what nothing left uses; a circle never can.
    let outside = |left: &BTreeMap<String, BTreeSet<String>>| {
        let ends = |module: &str, used: &BTreeSet<String>| {
            !used.iter().any(|other| left.contains_key(other)) || !left.values().any(|used| used.contains(module))
        };
        left.iter().find(|(module, used)| ends(module, used)).map(|(module, _)| module.clone())
    };
    while let Some(module) = outside(&left) {
        left.remove(&module);
    }
    assert!(left.is_empty(), "files in a circle: {:?}", left.keys());
}
