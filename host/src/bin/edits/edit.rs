//! The edits of a file.

/// A text of a file of the crate that is replaced.
#[derive(Debug, PartialEq)]
pub struct Change {
    pub file: String,
    pub old: String,
    pub new: String,
}

/// An edit: what it tries, in words, and what it replaces.
#[derive(Debug, PartialEq)]
pub struct Edit {
    pub says: String,
    pub changes: Vec<Change>,
}

/// The edits of a file's text: a line of words begins one, and a `file:` line holds for all changes after it.
pub fn edits(text: &str) -> Vec<Edit> {
    let mut all: Vec<Edit> = Vec::new();
    let mut file = String::new();
    for line in text.lines().filter(|line| !line.is_empty()) {
        if let Some(name) = line.strip_prefix("file: ") {
            file = name.to_string();
        } else if let Some(old) = line.strip_prefix("old: ") {
            let edit = all.last_mut().expect("words before a change");
            edit.changes.push(Change {
                file: file.clone(),
                old: old.to_string(),
                new: String::new(),
            });
        } else if let Some(new) = line.strip_prefix("new:") {
            let edit = all.last_mut().expect("words before a change");
            let change = edit.changes.last_mut().expect("an old text first");
            change.new = new.strip_prefix(' ').unwrap_or(new).to_string();
        } else {
            all.push(Edit {
                says: line.to_string(),
                changes: Vec::new(),
            });
        }
    }
    all
}

#[cfg(test)]
mod tests {
    use super::*;

    #[test]
    fn words_begin_an_edit_and_a_file_holds_on() {
        let change = |file: &str, old: &str, new: &str| Change {
            file: file.to_string(),
            old: old.to_string(),
            new: new.to_string(),
        };
        let all = edits(
            "One.\nfile: src/a.rt\nold:  x\nnew: y\nold: z\nnew:\n\
             Two.\nold: v\nnew: w\nfile: src/b.rt\nold: u\nnew: t\n",
        );
        assert_eq!(all.len(), 2);
        assert_eq!(
            (all[0].says.as_str(), all[1].says.as_str()),
            ("One.", "Two.")
        );
        assert_eq!(
            all[0].changes,
            [change("src/a.rt", " x", "y"), change("src/a.rt", "z", "")]
        );
        assert_eq!(
            all[1].changes,
            [change("src/a.rt", "v", "w"), change("src/b.rt", "u", "t")]
        );
    }
}
