//! The kept cases: the text files of the folder `cases`, or of the folder that `CASES` names. They always run first.
//! Files in folders below it are no kept cases.

use super::Case;

/// The cases of the folder, by file name.
pub fn all() -> Vec<(String, Case)> {
    let folder = std::env::var("CASES").unwrap_or(format!("{}/cases", env!("CARGO_MANIFEST_DIR")));
    let files = std::fs::read_dir(&folder).expect("the folder cases").map(|file| file.unwrap().path());
    let mut files: Vec<_> = files.filter(|path| path.is_file()).collect();
    files.sort();
    let mut all = vec![];
    for file in files {
        let text = std::fs::read_to_string(&file).expect("a case file");
        let name = file.file_name().unwrap().to_string_lossy().into_owned();
        let numbered = Case::all_of(&text).into_iter().enumerate();
        all.extend(numbered.map(|(index, case)| (format!("{name} ({})", index + 1), case)));
    }
    all
}
