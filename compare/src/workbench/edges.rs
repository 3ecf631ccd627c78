//! Files at the edges of the format: every form of a record whole, cut and with a wrong length, and texts. The text of
//! each must assemble to the same bytes, whatever the engine says of the file.

use crate::cases::records::{classed_report, handover, local_read, report, stop, sync, write};

/// Every form of a record, with every field at 0 and at its greatest, and amounts at both ends.
fn forms() -> Vec<Vec<u8>> {
    let mut forms = vec![];
    for form in [report(0, 0), classed_report(0, 0, 0), sync(0), handover(0, 0), stop(0, 0), local_read(0)] {
        forms.push(form.clone());
        forms.push([&form[..2], &vec![255; form.len() - 2]].concat());
    }
    forms.extend([write(0, 0, 0), write(255, 255, u32::MAX), report(255, i16::MIN), report(255, i16::MAX)]);
    forms.extend([classed_report(255, i16::MIN, 255), classed_report(255, i16::MAX, 255)]);
    forms
}

/// Texts, which are run files too.
const TEXTS: [&str; 8] = [
    "a",
    "ab",
    "version 1\ncontrollers 3\n",
    "bytes 03 09 01 02",
    "# a comment\r\n",
    "\n\n\n",
    "=<-#+",
    "\u{1}\u{2}\u{4}\u{1}é\u{2028}",
];

/// Files at the edges of the format, whatever the engine says of them.
pub fn edges() -> Vec<Vec<u8>> {
    let mut edges: Vec<Vec<u8>> = vec![vec![], vec![0], vec![1], vec![255], vec![0, 0], vec![255, 255]];
    for version in 0..=3 {
        edges.extend(forms().iter().map(|form| [&[version, 3], &form[..]].concat()));
        edges.push([&[version, 7], &forms().concat()[..]].concat());
    }
    for form in forms() {
        edges.extend((1..form.len()).map(|cut| [&[2, 3], &form[..cut]].concat()));
        let (mut longer, mut shorter) = (form.clone(), form.clone());
        longer[0] += 1;
        shorter[0] -= 1;
        edges.extend([longer, shorter].map(|off| [&[1, 3], &off[..], &[0]].concat()));
    }
    for length in [0, 255] {
        for after in [0, 1, 254, 255, 256, 511] {
            edges.extend([0, 3, 255].map(|fill| [vec![1, 3, length], vec![fill; after]].concat()));
        }
    }
    edges.extend(TEXTS.map(|text| text.as_bytes().to_vec()));
    edges
}
