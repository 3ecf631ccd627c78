//! Plants the faults of the folder `faults` in a copy of the reference: where a fault edits the text, the copy asks
//! whether that fault is planted. The copy, and the faults' names, go to the build folder; the reference stays plain.

use std::{env, fs, path::Path};

struct Fault {
    name: String,
    meaning: String,
    edits: Vec<Edit>,
}

/// Replaces the text `old` by `new`, in the place that has `before` right before it.
#[derive(Default)]
struct Edit {
    before: String,
    old: String,
    new: String,
}

/// A part of a file that a fault replaces.
struct Place {
    start: usize,
    end: usize,
    fault: usize,
    new: String,
}

/// The faults of a text: a line with name and meaning for each, then its edits.
fn faults_of(text: &str) -> Vec<Fault> {
    let mut faults: Vec<Fault> = vec![];
    for line in text.lines().filter(|line| !line.trim().is_empty() && !line.starts_with('#')) {
        let Some(rest) = line.strip_prefix(['-', '+', ' ']) else {
            let (name, meaning) = line.split_once(": ").expect("a name and a meaning");
            faults.push(Fault { name: name.into(), meaning: meaning.into(), edits: vec![] });
            continue;
        };
        let edits = &mut faults.last_mut().expect("a fault above its edits").edits;
        let added = line.starts_with('+');
        if edits.last().map_or(true, |edit| !added && !edit.new.is_empty()) {
            edits.push(Edit::default());
        }
        let edit = edits.last_mut().unwrap();
        let part = match &line[..1] {
            "-" => &mut edit.old,
            "+" => &mut edit.new,
            _ => &mut edit.before,
        };
        *part += &format!("{rest}\n");
    }
    faults
}

/// The characters of a text but for white space, with their places.
fn dense(text: &str) -> Vec<(usize, char)> {
    text.char_indices().filter(|(_, c)| !c.is_whitespace()).collect()
}

/// Every place of a file in which an edit's text stands; white space does not count.
fn places(file: &str, edit: &Edit) -> Vec<(usize, usize)> {
    let (text, before, old) = (dense(file), dense(&edit.before), dense(&edit.old));
    let wanted: Vec<char> = before.iter().chain(&old).map(|(_, c)| *c).collect();
    let found = text.windows(wanted.len()).filter(|window| window.iter().map(|(_, c)| c).eq(&wanted));
    found.map(|window| (window[before.len()].0, window[wanted.len() - 1].0 + 1)).collect()
}

/// The file from `start` to `end` with the faults planted, whose places are in order, outer ones first.
fn planted(file: &str, start: usize, end: usize, mut places: &[Place]) -> String {
    let (mut text, mut at) = (String::new(), start);
    while let Some((outer, others)) = places.split_first() {
        let inside = others.iter().take_while(|place| place.start < outer.end).count();
        assert!(others[..inside].iter().all(|place| place.end <= outer.end), "edits overlap");
        let right = planted(file, outer.start, outer.end, &others[..inside]);
        let (fault, wrong) = (outer.fault, &outer.new);
        text += &file[at..outer.start];
        let either = format!("if crate::engines::faults::planted({fault}) {{ {wrong} }} else {{ {right} }}");
        // A loop is a statement, which stands in no parentheses; any other text may be a part of an expression.
        text += &if right.ends_with('}') { format!("{{ {either} }}") } else { format!("({either})") };
        (at, places) = (outer.end, &others[inside..]);
    }
    text + &file[at..end]
}

/// Where each fault stands in the files, by file.
fn all_places(files: &[String], faults: &[Fault]) -> Vec<Vec<Place>> {
    let mut all: Vec<Vec<Place>> = files.iter().map(|_| vec![]).collect();
    for (number, fault) in faults.iter().enumerate() {
        for edit in &fault.edits {
            let found: Vec<_> = files.iter().map(|file| places(file, edit)).collect();
            let count: usize = found.iter().map(Vec::len).sum();
            assert!(count == 1, "{}: {count} places in the reference have the text\n{}", fault.name, edit.old);
            for (into, found) in all.iter_mut().zip(found) {
                let place = |(start, end)| Place { start, end, fault: number, new: edit.new.clone() };
                into.extend(found.into_iter().map(place));
            }
        }
    }
    for places in &mut all {
        places.sort_by_key(|place| (place.start, usize::MAX - place.end));
    }
    all
}

/// The module that a line declares, if it declares one.
fn module_of(line: &str) -> Option<&str> {
    line.strip_prefix("pub ").unwrap_or(line).strip_prefix("mod ")?.strip_suffix(';')
}

fn main() {
    let (root, out) = (env::var("CARGO_MANIFEST_DIR").unwrap(), env::var("OUT_DIR").unwrap());
    let read = |path: &Path| {
        println!("cargo:rerun-if-changed={}", path.display());
        fs::read_to_string(path).expect("a file of the comparer")
    };
    println!("cargo:rerun-if-changed={root}/faults");
    let mut lists: Vec<_> = fs::read_dir(format!("{root}/faults")).unwrap().map(|file| file.unwrap().path()).collect();
    lists.sort();
    let faults: Vec<Fault> = lists.iter().flat_map(|list| faults_of(&read(list))).collect();
    let reference = |name: &str| read(Path::new(&format!("{root}/src/reference/{name}.rs")));
    let top = reference("mod");
    let modules: Vec<&str> = top.lines().filter_map(module_of).collect();
    let files: Vec<String> = modules.iter().map(|name| reference(name)).collect();
    let mut copy = top.clone();
    for ((name, file), places) in modules.iter().zip(&files).zip(all_places(&files, &faults)) {
        let text = planted(file, 0, file.len(), &places);
        copy = copy.replace(&format!("mod {name};"), &format!("mod {name} {{\n{text}}}"));
    }
    // An inner comment may stand only at the head of a file, and the copy is included in a module.
    fs::write(format!("{out}/reference.rs"), copy.replace("//!", "//")).unwrap();
    let names: Vec<_> = faults.iter().map(|fault| (&fault.name, &fault.meaning)).collect();
    fs::write(format!("{out}/faults.rs"), format!("&{names:?}")).unwrap();
}
