//! Functions with a `requires`, and operators with what stands for one, `ghost can_add` and the like: docs/PROMISES.md names each of
//! them, and names no other; those that other crates can call are the ones that it says, and no call of the library has one.

use crate::shared::documents::{document, rows};
use crate::TOP;
use std::collections::BTreeSet;
use std::path::Path;

/// A function of src/; a method with the type of its `impl`.
struct Function {
    crate_name: String,
    module: String,
    within: Option<String>,
    name: String,
    public: bool,
    requires: bool,
}

/// What stands in a folder, in order.
fn entries(folder: &Path) -> Vec<std::path::PathBuf> {
    let entries = std::fs::read_dir(folder).unwrap();
    let mut all: Vec<_> = entries.map(|entry| entry.unwrap().path()).collect();
    all.sort();
    all
}

/// All functions of all crates.
fn functions() -> Vec<Function> {
    let mut all = Vec::new();
    for folder in entries(&Path::new(TOP).join("crates")) {
        for file in entries(&folder.join("src")) {
            let text = std::fs::read_to_string(&file).unwrap();
            all.extend(functions_of(&stem(&folder), &stem(&file), &text));
        }
    }
    all
}

/// Those of a file's text.
fn functions_of(crate_name: &str, module: &str, text: &str) -> Vec<Function> {
    let mut found = Vec::new();
    let mut within = None;
    let mut asks = false;
    let mut lines = text.lines();
    while let Some(line) = lines.next() {
        if line.starts_with('}') {
            (within, asks) = (None, false);
        }
        within = implemented(line).or(within);
        asks |= within.is_some() && line.trim_start().starts_with("ghost can_");
        let Some(name) = function(line, within.is_some()) else {
            continue;
        };
        // Its contract: up to the line where its code begins, a brace alone if there are clauses.
        let mut requires = asks;
        let mut next = Some(line);
        while next.is_some_and(|line| !line.ends_with('{') || is_clause(line)) {
            next = lines.next();
            requires |=
                next.is_some_and(|line| line.trim().starts_with("requires") && is_clause(line));
        }
        found.push(Function {
            crate_name: crate_name.into(),
            module: module.into(),
            within: within.clone(),
            name,
            public: line.trim_start().starts_with("pub "),
            requires,
        });
    }
    found
}

/// Whether a line begins a clause: its kind, with a star where it speaks of memory, its name if it has one, and a brace.
fn is_clause(line: &str) -> bool {
    let line = line.trim();
    let kinds = ["requires", "ensures"];
    let after = kinds.iter().find_map(|kind| line.strip_prefix(kind));
    let Some((name, _)) = after.and_then(|after| after.split_once('{')) else {
        return false;
    };
    let name = name.strip_prefix('*').unwrap_or(name);
    name.starts_with(' ') && name.trim().chars().all(|c| c.is_alphanumeric() || c == '_')
}

/// The type of the `impl` that a line begins, without its parameters.
fn implemented(line: &str) -> Option<String> {
    let rest = line.strip_prefix("impl")?;
    let rest = match rest.strip_prefix('<') {
        Some(rest) => rest.split_once("> ")?.1,
        None => rest.strip_prefix(' ')?,
    };
    let of = rest.rsplit(" for ").next()?;
    Some(of.split(['<', ' ']).next()?.into())
}

/// The function that a line begins, or the method, which stands further to the right.
fn function(line: &str, in_impl: bool) -> Option<String> {
    let line = if in_impl {
        line.strip_prefix("    ")?
    } else {
        line
    };
    let line = line.strip_prefix("pub ").unwrap_or(line);
    let line = line.strip_prefix("pub(crate) ").unwrap_or(line);
    let line = line.strip_prefix("extern \"C\" ").unwrap_or(line);
    let rest = line.strip_prefix("fn ")?;
    Some(rest.split(['(', '<']).next()?.into())
}

/// Whether a root file exports a function of a module, as by `pub use walk::line_at;` or `pub use walk::{line_at, start};`.
fn exports(lib: &str, module: &str, name: &str) -> bool {
    let items = lib.split("pub use ").skip(1);
    let items = items.filter_map(|rest| rest.split_once(';')?.0.split_once("::"));
    items.filter(|(from, _)| *from == module).any(|(_, names)| {
        let mut names = names.split(['{', ',', '}']).map(str::trim);
        names.any(|exported| exported == name)
    })
}

fn stem(path: &Path) -> String {
    path.file_stem().unwrap().to_string_lossy().into()
}

/// What a row names: functions of a crate, or all of some files of it.
struct Named {
    crate_name: String,
    functions: Vec<String>,
    modules: Vec<String>,
}

/// A row's first cell, as in "`bench::cut::keep`, `ended`, `bench::hex::*`" or "the readers in rule/src/expect.rt, sums.rt".
fn named(cell: &str) -> Named {
    let cell = cell.split(" (").next().unwrap();
    let quoted: Vec<&str> = cell.split('`').skip(1).step_by(2).collect();
    let (mut functions, mut modules) = (Vec::new(), Vec::new());
    for name in &quoted {
        match name.strip_suffix("::*") {
            Some(module) => modules.push(module.rsplit("::").next().unwrap().into()),
            None => functions.push(name.rsplit("::").next().unwrap().into()),
        }
    }
    let words = cell.split([' ', ',']);
    let files: Vec<&str> = words.filter_map(|word| word.strip_suffix(".rt")).collect();
    if cell.starts_with("the ") {
        modules.extend(files.iter().map(|file| stem(Path::new(file))));
    }
    let crate_name = match files.first() {
        Some(file) => file.split('/').next().unwrap().into(),
        None => quoted[0].split("::").next().unwrap().into(),
    };
    Named {
        crate_name,
        functions,
        modules,
    }
}

/// The section of docs/PROMISES.md.
fn section() -> String {
    let text = document("docs/PROMISES.md");
    let (_, rest) = text.split_once("## Functions with a `requires`").unwrap();
    rest.split_once("\n## ").unwrap().0.into()
}

#[test]
fn the_table_names_each_and_no_other() {
    let table: Vec<Named> = rows(&section(), ["Function", "Requires", "Callers"])
        .iter()
        .map(|[cell, _, _]| named(cell))
        .collect();
    let all: Vec<Function> = functions().into_iter().filter(|f| f.requires).collect();
    assert!(all.len() > 100, "{}", all.len());
    for Function {
        crate_name,
        module,
        name,
        ..
    } in &all
    {
        let of_crate = table.iter().filter(|row| row.crate_name == *crate_name);
        let mut rows =
            of_crate.filter(|row| row.functions.contains(name) || row.modules.contains(module));
        assert!(
            rows.next().is_some(),
            "{crate_name}::{module}::{name} is not in the table"
        );
    }
    for row in &table {
        let has = |test: &dyn Fn(&Function) -> bool| {
            all.iter()
                .any(|f| f.crate_name == row.crate_name && test(f))
        };
        for name in &row.functions {
            assert!(
                has(&|f| f.name == *name),
                "{}: `{name}` has none",
                row.crate_name
            );
        }
        for module in &row.modules {
            assert!(
                has(&|f| f.module == *module),
                "{}/src/{module}.rt has none",
                row.crate_name
            );
        }
    }
}

#[test]
fn those_of_other_crates_are_the_ones_it_says() {
    let all = functions();
    let exported = |f: &Function| {
        let lib = Path::new(TOP).join(format!("crates/{}/src/lib.rt", f.crate_name));
        let lib = std::fs::read_to_string(lib).unwrap_or_default();
        let item = f.within.as_ref().unwrap_or(&f.name);
        f.public && (f.module == "lib" || exports(&lib, &f.module, item))
    };
    let found: BTreeSet<&str> = all
        .iter()
        .filter(|f| f.requires && exported(f))
        .map(|f| f.name.as_str())
        .collect();
    let section = section();
    let said = section.trim_start().split("\n\n").next().unwrap();
    let said: BTreeSet<&str> = said
        .split('`')
        .skip(1)
        .step_by(2)
        .map(|name| name.rsplit("::").next().unwrap())
        .collect();
    assert_eq!(found, said);
    let mut calls = all.iter().filter(|f| f.crate_name == "dillplatter");
    assert!(calls.clone().any(|f| f.name == "dillplatter_pull") && calls.all(|f| !f.requires));
}

#[test]
fn a_row_is_read_by_names_and_by_files() {
    let row = named("`bench::cut::keep`, `bench::step::*`, `ended` (`Ready`, x/y.rt)");
    assert_eq!(
        (row.crate_name.as_str(), row.functions.as_slice()),
        (
            "bench",
            ["keep".to_string(), "ended".to_string()].as_slice()
        )
    );
    assert_eq!(row.modules, ["step"]);
    let row = named("the readers in rule/src/expect.rt, sums.rt");
    assert_eq!(
        (row.crate_name.as_str(), row.modules.as_slice()),
        (
            "rule",
            ["expect".to_string(), "sums".to_string()].as_slice()
        )
    );
    let row = named("`copied`, `fresh` in checker/src/opening.rt");
    assert_eq!(
        (
            row.crate_name.as_str(),
            row.functions.len(),
            row.modules.len()
        ),
        ("checker", 2, 0)
    );
}

#[test]
fn a_contract_is_read_in_each_of_its_forms() {
    let text = "
fn plain(a: u8) -> u8 {
    requires(a)
}

fn short(a: u8) -> u8
    requires { a < 2 }
{
    a
}

pub fn named<'a>(
    a: u8,
) -> u8
    ensures low { result ≡ a
        × (a ≡ a) }
    requires room { a < 2 }
{
    a
}

extern \"C\" fn starred()
    requires* { ⊤ₛ }
{
}

pub fn only_ensures(requires: u8)
    ensures { ⊤ }
{
    let requires = {
        2
    };
}

impl<'a> Reader<'a> {
    // A method.
    pub fn next(&mut self) -> u8
        requires { self.old.at < 2 }
    {
        let f = fn_of(self);
    }

    fn plain(&self) {
        requires(self)
    }

    pub(crate) fn inner(&self)
        requires { ⊤ }
    {
    }
}

impl Add for Term<'_> {
    type Output = Self;

    ghost can_add = { λ x y. ⊤ };

    fn add(self, y: Self) -> Self {
        self
    }
}

impl Not for Term<'_> {
    ghost not_gives = { λ p r. ⊤ };

    fn not(self) -> Self {
        self
    }
}

fn last()
    requires { ⊤ }
{
}
";
    let found: Vec<(Option<String>, String, bool, bool)> = functions_of("c", "m", text)
        .into_iter()
        .map(|f| (f.within, f.name, f.public, f.requires))
        .collect();
    let expected = [
        (None, "plain", false, false),
        (None, "short", false, true),
        (None, "named", true, true),
        (None, "starred", false, true),
        (None, "only_ensures", true, false),
        (Some("Reader"), "next", true, true),
        (Some("Reader"), "plain", false, false),
        (Some("Reader"), "inner", false, true),
        (Some("Term"), "add", false, true),
        (Some("Term"), "not", false, false),
        (None, "last", false, true),
    ];
    assert_eq!(
        found,
        expected.map(|(within, name, public, requires)| {
            (within.map(str::to_string), name.into(), public, requires)
        })
    );
    assert_eq!(implemented("impl From<A> for B<'_> {").unwrap(), "B");
}

#[test]
fn what_a_root_file_exports_is_read_alone_and_in_a_list() {
    let lib = "pub use walk::line_at;\nuse walk::hidden;\npub use line::{\n    read_line,\n    Line,\n};\n";
    assert!(exports(lib, "walk", "line_at"));
    assert!(exports(lib, "line", "read_line"));
    assert!(exports(lib, "line", "Line"));
    assert!(!exports(lib, "walk", "hidden"));
    assert!(!exports(lib, "walk", "read_line"));
    assert!(!exports(lib, "line", "read"));
}
