//! Suggestions for misspelt words.

/// A question for a complaint about a word, "did you mean `report`?", if a known word is near.
pub fn did_you_mean<'a>(word: &str, known: impl IntoIterator<Item = &'a str>) -> Option<String> {
    let word: Vec<char> = word.to_lowercase().chars().collect();
    let distances = known.into_iter().map(|other| (distance(&word, &other.chars().collect::<Vec<char>>()), other));
    let (distance, nearest) = distances.min_by_key(|(distance, _)| *distance)?;
    (distance <= (word.len() / 3).max(1)).then(|| format!("did you mean `{nearest}`?"))
}

/// How many letters of a word are wrong, missing, too many, or exchanged with the next one. A word that begins with the
/// other, or with which the other begins, counts as one with one wrong letter.
fn distance(word: &[char], other: &[char]) -> usize {
    if !word.is_empty() && (word.starts_with(other) || other.starts_with(word)) {
        return 1;
    }
    // The distances from the first letters of one word to the first letters of the other; a row for each letter of `word`.
    let mut rows: Vec<Vec<usize>> = vec![(0..=other.len()).collect()];
    for (i, letter) in word.iter().enumerate() {
        let mut row = vec![i + 1];
        for (j, wanted) in other.iter().enumerate() {
            let replaced = rows[i][j] + usize::from(letter != wanted);
            let exchanged = match i > 0 && j > 0 && *letter == other[j - 1] && word[i - 1] == *wanted {
                true => rows[i - 1][j - 1] + 1,
                false => replaced,
            };
            row.push(replaced.min(exchanged).min(rows[i][j + 1] + 1).min(row[j] + 1));
        }
        rows.push(row);
    }
    rows[word.len()][other.len()]
}
