//! "Did you mean": the name that a misspelt one is nearest to.

/// The one of the names that is one letter off, of longer words two; nothing where two are as near.
pub fn nearest<'a>(word: &str, names: impl Iterator<Item = &'a str>) -> Option<&'a str> {
    let most = match word.chars().count() {
        0..=2 => return None,
        3..=5 => 1,
        _ => 2,
    };
    let mut near: Vec<(usize, &str)> = names.map(|name| (distance(word, name), name)).collect();
    near.retain(|(letters, name)| (1..=most).contains(letters) && name.chars().count() > 2);
    near.sort();
    match near[..] {
        [(one, _), (other, _), ..] if one == other => None,
        [(_, name), ..] => Some(name),
        [] => None,
    }
}

/// `: did you mean `rows`?`, or nothing.
pub fn did_you_mean(near: Option<&str>) -> String {
    near.map_or_else(String::new, |name| format!(": did you mean `{name}`?"))
}

/// How many letters are put in, left out, changed or exchanged with their neighbour; 3 stands for more.
fn distance(one: &str, other: &str) -> usize {
    let (a, b): (Vec<char>, Vec<char>) = (one.chars().collect(), other.chars().collect());
    if a.len().abs_diff(b.len()) > 2 {
        return 3;
    }
    let mut rows: Vec<Vec<usize>> = vec![(0..=b.len()).collect()];
    for i in 1..=a.len() {
        let mut row = vec![i];
        for j in 1..=b.len() {
            let changed = rows[i - 1][j - 1] + usize::from(a[i - 1] != b[j - 1]);
            let mut least = changed.min(rows[i - 1][j] + 1).min(row[j - 1] + 1);
            if i > 1 && j > 1 && a[i - 1] == b[j - 2] && a[i - 2] == b[j - 1] {
                least = least.min(rows[i - 2][j - 2] + 1);
            }
            row.push(least);
        }
        rows.push(row);
    }
    rows[a.len()][b.len()]
}

#[cfg(test)]
mod tests {
    use super::*;

    #[test]
    fn one_letter_or_two() {
        let near = |word: &str| nearest(word, ["rows", "boats", "dynamic_check"].into_iter());
        assert_eq!(near("rosw"), Some("rows"));
        assert_eq!(near("dynamic_chek"), Some("dynamic_check"));
        assert_eq!(near("dynmic_chek"), Some("dynamic_check"));
        assert_eq!((near("rows"), near("xyz"), near("ro")), (None, None, None));
        assert_eq!(near("bots"), Some("boats"));
        // Two that are as near are none.
        assert_eq!(nearest("rowx", ["rowa", "rowb"].into_iter()), None);
    }
}
