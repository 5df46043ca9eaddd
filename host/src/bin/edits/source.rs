//! What a change is made in: a function, a constant or a definition of the crate, and which proofs rest on that.

use crate::edit::Change;
use crate::facts::Fact;
use std::collections::BTreeMap;

/// What a change is made in.
#[derive(Debug, PartialEq)]
pub enum Owner {
    /// A function's code, by the function's number.
    Function(usize),
    /// What a function requires or ensures, by the function's number.
    Contract(usize),
    /// A constant, by its file and its name.
    Constant(String, String),
    /// A definition, by its number, with those that use it.
    Definition(Vec<usize>),
}

/// A function of src/, a method with the name of its `impl`.
struct Function {
    file: String,
    within: String,
    name: String,
    text: String,
    /// The folders that its proof may have.
    proofs: Vec<String>,
    /// How its facts begin, where functions that call one another share a proof.
    prefix: String,
}

/// A definition of specs/.
struct Definition {
    file: String,
    name: String,
    text: String,
}

/// A crate's sources: files by their paths in it, and the functions and the definitions in them.
pub struct Sources {
    name: String,
    files: BTreeMap<String, String>,
    functions: Vec<Function>,
    definitions: Vec<Definition>,
}

/// An item of a file of src/; a function with the name of its `impl`, empty outside one.
enum Item {
    Function(String, String),
    Constant(String),
    Other,
}

impl Sources {
    pub fn new(name: &str, files: impl IntoIterator<Item = (String, String)>) -> Sources {
        let files: BTreeMap<String, String> = files.into_iter().collect();
        let below =
            |part: &'static str| files.iter().filter(move |(file, _)| file.starts_with(part));
        let types: BTreeMap<String, String> = below("src/")
            .flat_map(|(file, text)| types(text).map(|name| (name, folder(file))))
            .collect();
        let functions = below("src/")
            .flat_map(|(file, text)| functions(file, text, &types))
            .collect();
        let definitions = below("specs/").flat_map(|(file, text)| {
            declarations(text)
                .into_iter()
                .map(|(name, text)| Definition {
                    file: file.clone(),
                    name,
                    text,
                })
        });
        let definitions = definitions.collect();
        Sources {
            name: name.to_string(),
            files,
            functions,
            definitions,
        }
    }

    /// What a change is made in; nothing for a line that only brings names in.
    pub fn owner(&self, change: &Change) -> Option<Owner> {
        let file = &change.file;
        let text = &self.files[file];
        let place = text
            .find(&change.old)
            .unwrap_or_else(|| panic!("{file} has no `{}`", change.old));
        if file.starts_with("specs/") {
            let name = definition_at(text, place)?;
            let it = self
                .definitions
                .iter()
                .position(|d| d.file == *file && d.name == name);
            return it.map(|it| Owner::Definition(self.with_users(it)));
        }
        let end = place + change.old.len();
        match items(text)
            .into_iter()
            .rev()
            .find(|&(start, _)| start < end)?
            .1
        {
            Item::Function(within, name) => {
                let is_it = |f: &Function| f.file == *file && f.within == within && f.name == name;
                let k = self.functions.iter().position(is_it)?;
                let own = &self.functions[k].text;
                let body = text.find(own)? + body(own)?;
                Some(if place < body {
                    Owner::Contract(k)
                } else {
                    Owner::Function(k)
                })
            }
            Item::Constant(name) => Some(Owner::Constant(file.clone(), name)),
            Item::Other => None,
        }
    }

    /// Whether a fact can be refused because of a change: it is of the function's own proof, or of that of a caller, where the
    /// contract is changed, or of a proof or a statement that uses the constant or the definition.
    pub fn rests_on(&self, fact: &Fact, owner: &Owner) -> bool {
        let mut proved = self.functions.iter().filter(|f| f.proved_by(fact));
        match owner {
            Owner::Function(k) => self.functions[*k].proved_by(fact),
            Owner::Contract(k) => {
                let it = &self.functions[*k];
                it.proved_by(fact) || proved.any(|f| has_word(&f.text, &it.name))
            }
            Owner::Constant(file, name) => proved.any(|f| f.uses_constant(file, name)),
            Owner::Definition(all) => {
                let uses = |file: &str, text: &str| all.iter().any(|&d| self.uses(file, text, d));
                let law = self
                    .files
                    .get(&fact.file)
                    .and_then(|text| declarations(text).into_iter().find(|d| d.0 == fact.name));
                law.is_some_and(|(_, text)| uses(&fact.file, &text))
                    || proved.any(|f| uses(&f.file, &f.text))
            }
        }
    }

    /// Whether a text of a file uses a definition: the file has it, or brings it in, and the text names it.
    fn uses(&self, file: &str, text: &str, definition: usize) -> bool {
        let it = &self.definitions[definition];
        let module = it.file.trim_start_matches("specs/");
        let module = module.trim_end_matches(".antt").replace('/', ".");
        let module = format!("use Rattle.{}.specs.{module}", self.name);
        let brings = |line: &str| {
            let rest = line.split_once(&module).map(|(_, rest)| rest);
            rest.is_some_and(|rest| {
                rest.trim_end_matches(';').is_empty()
                    || rest.starts_with(" as ")
                    || rest.starts_with(".{") && has_word(rest, &it.name)
            })
        };
        (file == it.file || self.files[file].lines().any(brings)) && has_word(text, &it.name)
    }

    /// A definition with those that use it, directly or through others.
    fn with_users(&self, definition: usize) -> Vec<usize> {
        let mut all = vec![definition];
        let mut done = 0;
        while done < all.len() {
            let new = |&user: &usize| {
                let it = &self.definitions[user];
                !all.contains(&user) && self.uses(&it.file, &it.text, all[done])
            };
            let users: Vec<usize> = (0..self.definitions.len()).filter(new).collect();
            all.extend(users);
            done += 1;
        }
        all
    }
}

impl Function {
    fn proved_by(&self, fact: &Fact) -> bool {
        let mut proofs = self.proofs.iter();
        proofs.any(|proof| fact.file.starts_with(proof)) && fact.name.starts_with(&self.prefix)
    }

    fn uses_constant(&self, file: &str, name: &str) -> bool {
        let module = file.trim_start_matches("src/").trim_end_matches(".rt");
        let name = if self.file == file {
            name.to_string()
        } else {
            format!("{module}::{name}")
        };
        has_word(&self.text, &name)
    }
}

/// The folder of the proofs of a file of src/.
fn folder(file: &str) -> String {
    match file.trim_start_matches("src/").trim_end_matches(".rt") {
        "lib" | "main" => "proofs/".to_string(),
        module => format!("proofs/{module}/"),
    }
}

/// The types that a file of src/ declares.
fn types(text: &str) -> impl Iterator<Item = String> + '_ {
    text.lines().filter_map(|line| {
        let line = line.strip_prefix("pub ").unwrap_or(line);
        let rest = ["struct ", "enum "]
            .iter()
            .find_map(|kind| line.strip_prefix(kind))?;
        Some(words(rest).first()?.clone())
    })
}

/// The functions of a file of src/, where the types of a crate have these folders. A method's proof lies by its type, that of a
/// trait's method by the file of the `impl`.
fn functions(file: &str, text: &str, types: &BTreeMap<String, String>) -> Vec<Function> {
    let items = items(text);
    let ends: Vec<usize> = items
        .iter()
        .skip(1)
        .map(|&(start, _)| start)
        .chain([text.len()])
        .collect();
    let mut all = Vec::new();
    for ((start, item), end) in items.into_iter().zip(ends) {
        if let Item::Function(within, name) = item {
            let folder = match (within.as_str(), types.get(&within)) {
                ("", _) => folder(file),
                (within, Some(of_type)) => format!("{of_type}{within}/"),
                (within, None) => format!("{}{within}/", folder(file)),
            };
            let (proofs, prefix) = proofs_of(text, start, &folder, &name);
            all.push(Function {
                file: file.to_string(),
                within,
                name,
                text: text[start..end].to_string(),
                proofs,
                prefix,
            });
        }
    }
    all
}

/// Where a function's code begins: at a brace alone, as far to the right as the function, or behind its head.
fn body(function: &str) -> Option<usize> {
    let indent = &function[..function.len() - function.trim_start().len()];
    function
        .find(&format!("\n{indent}{{"))
        .or_else(|| function.find(" {\n"))
}

/// The name that proofs have for an `impl`, from its first line: its type's, as `Stack+Magnitude` where it has arguments, and behind
/// that of a trait the trait's with its arguments, as `LostFromBadLine` of `impl<'a> From<BadLine> for Lost<'a>`; the impl's own
/// parameters are left out.
fn impl_name(line: &str) -> Option<String> {
    let rest = line.strip_prefix("impl")?;
    let (own, rest) = match rest.strip_prefix('<') {
        Some(rest) => rest.split_once("> ")?,
        None => ("", rest.strip_prefix(' ')?),
    };
    let own: Vec<String> = words(own);
    let named = |text: &str| -> Vec<String> {
        let words = words(text).into_iter().filter(|word| !own.contains(word));
        words
            .map(|word| word[..1].to_uppercase() + &word[1..])
            .collect()
    };
    let head = rest.trim_end().trim_end_matches('{');
    Some(match head.split_once(" for ") {
        Some((of_trait, of_type)) => named(of_type).concat() + &named(of_trait).concat(),
        None => named(head).join("+"),
    })
}

/// The names in a text, without lifetimes; `&`, `()` and the brackets of an array count as the words Ref, Unit and Array.
fn words(text: &str) -> Vec<String> {
    let text = text
        .replace('&', " Ref ")
        .replace("()", " Unit ")
        .replace('[', " Array ");
    let inside = |c: char| c.is_alphanumeric() || c == '_' || c == '\'';
    let words = text.split(|c: char| !inside(c));
    words
        .filter(|word| !word.is_empty() && !word.starts_with('\''))
        .map(str::to_string)
        .collect()
}

/// The folders that a function's proof may have, and how its facts begin: `+NAME` is of all functions under `#[cycle(NAME)]`, and
/// where these are more than one, the facts of `f` begin with `f-`; `+f` is of a function that only calls itself.
fn proofs_of(text: &str, start: usize, folder: &str, name: &str) -> (Vec<String>, String) {
    let mut above = text[..start]
        .lines()
        .rev()
        .map(str::trim_start)
        .take_while(|line| line.starts_with("#["));
    let cycle = above.find(|line| line.starts_with("#[cycle("));
    match cycle.map(|line| (line, &line["#[cycle(".len()..line.len() - ")]".len()])) {
        Some((line, cycle)) => {
            let is_shared = text
                .lines()
                .filter(|other| other.trim_start() == line)
                .count()
                > 1;
            let prefix = if is_shared {
                format!("{name}-")
            } else {
                String::new()
            };
            (vec![format!("{folder}+{cycle}/")], prefix)
        }
        None => {
            let own = ["", "+"].map(|sign| format!("{folder}{sign}{name}/"));
            (own.to_vec(), String::new())
        }
    }
}

/// The items of a file of src/, each with where it begins. A comment, and a line that brings names in, count as items.
fn items(text: &str) -> Vec<(usize, Item)> {
    let mut all = vec![(0, Item::Other)];
    let mut start = 0;
    let mut within = String::new();
    for line in text.split_inclusive('\n') {
        if let Some(name) = impl_name(line) {
            within = name;
        } else if line.starts_with('}') {
            within.clear();
        }
        // Within an `impl` a comment before a method.
        let is_comment = line.starts_with("//") || !within.is_empty() && line.starts_with("    //");
        let words = line
            .trim_start()
            .trim_start_matches("pub ")
            .trim_start_matches("pub(crate) ")
            .trim_start_matches("extern \"C\" ");
        let name = |rest: &str| {
            rest.chars()
                .take_while(|&c| c.is_alphanumeric() || c == '_')
                .collect()
        };
        if let Some(rest) = words.strip_prefix("fn ") {
            all.push((start, Item::Function(within.clone(), name(rest))));
        } else if let Some(rest) = words.strip_prefix("const ") {
            all.push((start, Item::Constant(name(rest))));
        } else if is_comment || line.starts_with("ghost use ") {
            all.push((start, Item::Other));
        }
        start += line.len();
    }
    all
}

/// The record that a line of antt begins.
fn record(line: &str) -> Option<&str> {
    let words = line.strip_prefix("pub ").unwrap_or(line);
    words.strip_prefix("record ")?.split(' ').next()
}

/// The name that a line of antt gives a type.
fn typed(line: &str) -> Option<&str> {
    if let Some(name) = record(line) {
        return Some(name);
    }
    let name = line.split_once(" : ")?.0.split(' ').next_back()?;
    (!line.starts_with("module ") && !name.starts_with('(')).then_some(name)
}

/// The declarations of a file of antt, names with their texts: each from the line with its type to the next such line, with the
/// head of the module around it. A comment is no part of them: it may have the name of another as a plain word.
fn declarations(text: &str) -> Vec<(String, String)> {
    let mut all: Vec<(String, String)> = Vec::new();
    let mut head = "";
    let is_comment = |line: &&str| line.trim_start().starts_with("--");
    for line in text.lines().filter(|line| !is_comment(line)) {
        if line.starts_with("module ") {
            head = line;
        } else if !line.is_empty() && !line.starts_with(' ') {
            head = "";
        }
        if let Some(name) = typed(line) {
            all.push((name.to_string(), format!("{head}\n")));
        }
        if let Some((_, text)) = all.last_mut() {
            text.push_str(line);
            text.push('\n');
        }
    }
    all
}

/// The definition that has a place of a file of specs/: the last line up to there that begins with a name, as far to the right as
/// the line with its type, or that begins a record, whose fields are its own; none above the first definition.
fn definition_at(text: &str, place: usize) -> Option<String> {
    let indent = |line: &str| line.len() - line.trim_start().len();
    let names: Vec<(usize, &str)> = text
        .lines()
        .filter_map(|line| Some((indent(line), typed(line)?)))
        .collect();
    let end = text[place..]
        .find('\n')
        .map_or(text.len(), |length| place + length);
    let firsts = text[..end].lines().rev().filter_map(|line| {
        let first = record(line).or_else(|| line.split_whitespace().next())?;
        Some((indent(line), first))
    });
    let found = firsts.into_iter().find(|first| names.contains(first));
    found.map(|(_, name)| name.to_string())
}

/// Whether a text has a name as a whole word.
fn has_word(text: &str, name: &str) -> bool {
    let inside = |c: char| c.is_alphanumeric() || "_-'".contains(c);
    text.match_indices(name).any(|(at, _)| {
        let (before, after) = (
            text[..at].chars().next_back(),
            text[at + name.len()..].chars().next(),
        );
        !before.is_some_and(inside) && !after.is_some_and(inside)
    })
}

#[cfg(test)]
mod tests {
    use super::*;

    const METHODS: &str = "// Words.\npub struct R<'a> {\n    at: &'a [u8],\n}\n\nimpl<'a> R<'a> {\n    // One.\n    pub(crate) fn f(&self) -> u8\n        \
        ensures { result ≡ 1 }\n    {\n        1\n    }\n\n    // Two.\n    #[cycle(round)]\n    fn g(&self) {\n        2\n    }\n\n    \
        #[cycle(round)]\n    fn h(&self) {\n        4\n    }\n}\n\nimpl From<u8> for R<'_> {\n    fn from(x: u8) -> Self {\n        x\n    }\n}\n\nimpl P {\n    \
        fn p() {\n        5\n    }\n}\n\nfn f() {\n    3\n}\n";

    fn owner(old: &str) -> Option<(String, String, bool)> {
        let other = "pub struct P {\n}\n";
        let files = [("src/a.rt", METHODS), ("src/b.rt", other)];
        let sources = Sources::new("c", files.map(|(file, text)| (file.into(), text.into())));
        let change = Change {
            file: "src/a.rt".to_string(),
            old: old.to_string(),
            new: String::new(),
        };
        let (k, is_code) = match sources.owner(&change)? {
            Owner::Function(k) => (k, true),
            Owner::Contract(k) => (k, false),
            _ => return None,
        };
        let it = &sources.functions[k];
        Some((it.proofs[0].clone(), it.prefix.clone(), is_code))
    }

    #[test]
    fn a_method_is_of_its_impl() {
        let of = |proof: &str, prefix: &str, is_code| {
            Some((proof.to_string(), prefix.to_string(), is_code))
        };
        assert_eq!(owner("result ≡ 1"), of("proofs/a/R/f/", "", false));
        assert_eq!(owner("        1\n"), of("proofs/a/R/f/", "", true));
        assert_eq!(owner("        2\n"), of("proofs/a/R/+round/", "g-", true));
        assert_eq!(owner("        x\n"), of("proofs/a/RFromU8/from/", "", true));
        assert_eq!(owner("        5\n"), of("proofs/b/P/p/", "", true));
        assert_eq!(owner("    3\n"), of("proofs/a/f/", "", true));
        assert_eq!(owner("    at: &'a [u8],"), None);
    }

    #[test]
    fn an_impl_has_a_name() {
        let name = |line| impl_name(line).unwrap();
        assert_eq!(name("impl Stack {\n"), "Stack");
        assert_eq!(name("impl<const N: usize> Line<N> {\n"), "Line");
        assert_eq!(name("impl Stack<Magnitude> {\n"), "Stack+Magnitude");
        assert_eq!(name("impl<T: Copy> Stack<T> {\n"), "Stack");
        assert_eq!(name("impl Rank for &u8 {\n"), "RefU8Rank");
        assert_eq!(
            name("impl<'a> From<BadLine> for Lost<'a> {\n"),
            "LostFromBadLine"
        );
        assert_eq!(
            name("impl From<Result<[u8; 34], a::Lost>> for Told {\n"),
            "ToldFromResultArrayU834ALost"
        );
        assert_eq!(
            name("impl From<Result<(), Lost>> for Told {\n"),
            "ToldFromResultUnitLost"
        );
        assert_eq!(impl_name("implied();\n"), None);
    }
}
