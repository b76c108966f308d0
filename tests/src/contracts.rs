//! The contracts as they stand in src/, read as text: each public function with its parameters and its clauses, and where a
//! definition that a clause names comes from.

use std::fs;
use std::path::{Path, PathBuf};

/// A public function: its crate and name, its parameters as written, and its clauses.
#[derive(Clone, Debug)]
pub struct Function {
    pub name: String,
    pub exported: bool,
    pub params: Vec<(String, String)>,
    pub requires: Vec<String>,
    pub ensures: Vec<String>,
}

/// A row of a table in the head of the demands: a function, where its definition stands, and what the last column says.
#[derive(Clone, Debug)]
pub struct Row {
    pub function: String,
    pub crate_name: String,
    pub module: String,
    pub definition: String,
    pub last: String,
}

pub fn crates() -> PathBuf {
    Path::new(env!("CARGO_MANIFEST_DIR")).join("../crates")
}

pub fn text(path: &Path) -> String {
    fs::read_to_string(path).unwrap_or_else(|e| panic!("{}: {e}", path.display()))
}

/// The text of a crate's only source file, and the crate's name.
pub fn sources() -> Vec<(String, String)> {
    let mut found: Vec<(String, String)> = fs::read_dir(crates())
        .unwrap()
        .map(|entry| entry.unwrap().path())
        .filter_map(|folder| {
            let lib = folder.join("src/lib.rt");
            let name = folder.file_name().unwrap().to_str().unwrap().to_string();
            lib.is_file().then(|| (name, text(&lib)))
        })
        .collect();
    found.sort();
    found
}

/// The text between an opening brace and the one that closes it.
fn braced(text: &str) -> &str {
    let open = text.find('{').unwrap();
    let mut depth = 0;
    for (at, c) in text.char_indices() {
        match c {
            '{' => depth += 1,
            '}' if depth == 1 => return text[open + 1..at].trim(),
            '}' => depth -= 1,
            _ => {}
        }
    }
    panic!("a brace is not closed: {text}")
}

/// The public functions of a source file. A clause begins on a line of its own, and the body opens on the line after the last.
pub fn functions(source: &str) -> Vec<Function> {
    let mut found = Vec::new();
    let mut rest = source;
    while let Some(at) = rest
        .find("pub fn ")
        .into_iter()
        .chain(rest.find("pub extern \"C\" fn "))
        .min()
    {
        let exported = rest[at..].starts_with("pub extern");
        let head = &rest[at + rest[at..].find("fn ").unwrap() + 3..];
        let open = head.find('(').unwrap();
        let close = head.find(')').unwrap();
        let params = head[open + 1..close]
            .split(',')
            .map(str::trim)
            .filter(|param| !param.is_empty())
            .map(|param| match param.split_once(':') {
                Some((name, kind)) => (name.trim().to_string(), kind.trim().to_string()),
                None => ("self".to_string(), param.to_string()),
            })
            .collect();
        let (mut requires, mut ensures) = (Vec::new(), Vec::new());
        let mut clauses = &head[close..];
        loop {
            let (line, behind) = clauses.split_once('\n').unwrap_or((clauses, ""));
            let line = line.trim();
            let kept = match line.split(' ').next() {
                Some("requires") => &mut requires,
                Some("ensures") => &mut ensures,
                _ if line == "{" || line.ends_with(" {") || behind.is_empty() => break,
                _ => {
                    clauses = behind;
                    continue;
                }
            };
            let clause = braced(clauses);
            kept.push(clause.split_whitespace().collect::<Vec<_>>().join(" "));
            clauses = &clauses[clauses.find(clause).unwrap() + clause.len()..];
            clauses = clauses.split_once('}').unwrap().1;
        }
        found.push(Function {
            name: head[..open].to_string(),
            exported,
            params,
            requires,
            ensures,
        });
        rest = &head[close..];
    }
    found
}

/// Whether a name stands in a text by itself, and not as the field of another.
pub fn names(text: &str, name: &str) -> bool {
    let part = |c: char| c.is_alphanumeric() || c == '_' || c == '\'';
    text.match_indices(name).any(|(at, _)| {
        let (before, behind) = (&text[..at], &text[at + name.len()..]);
        !before.ends_with(part) && !before.ends_with('.') && !behind.starts_with(part)
    })
}

/// Whether a `use` of this keyword brings a name from a module.
pub fn brings(source: &str, keyword: &str, module: &str, name: &str) -> bool {
    let start = format!("{keyword} {module}.{{");
    source
        .lines()
        .filter_map(|line| line.strip_prefix(start.as_str()))
        .any(|list| {
            list.trim_end_matches([';', '}'])
                .split(", ")
                .any(|brought| brought == name)
        })
}

/// The tables in the head of the demands, one after the other.
pub fn tables(demands: &str) -> Vec<Vec<Row>> {
    let mut tables: Vec<Vec<Row>> = Vec::new();
    for line in demands.lines().take_while(|line| line.starts_with("--")) {
        let Some(cells) = line.strip_prefix("-- |") else {
            continue;
        };
        let cells: Vec<&str> = cells
            .trim_end_matches('|')
            .split('|')
            .map(str::trim)
            .collect();
        if cells[0] == "function" {
            tables.push(Vec::new());
        } else if !cells[0].starts_with('-') {
            let place: Vec<&str> = cells[1].split(' ').collect();
            tables.last_mut().unwrap().push(Row {
                function: cells[0].to_string(),
                crate_name: place[0].to_string(),
                module: place[1].to_string(),
                definition: place[2].to_string(),
                last: cells[2].to_string(),
            });
        }
    }
    tables
}

/// What is wrong with the contract of a row's function in the text of its crate's source, if anything is: it is to be one equation
/// with the definition, of every parameter, for every input, and to say what each lent buffer holds afterwards.
pub fn fault(row: &Row, source: &str) -> Option<String> {
    let (_, name) = row.function.split_once("::").unwrap();
    let module = format!("Rattle.{}.specs.{}", row.crate_name, row.module);
    if !brings(source, "ghost use", &module, &row.definition) {
        return Some(format!(
            "{}: {} is not brought from {module}",
            row.function, row.definition
        ));
    }
    let all = functions(source);
    let Some(f) = all.iter().find(|f| f.name == name) else {
        return Some(format!("{} is not there", row.function));
    };
    if !f.requires.is_empty() || f.ensures.len() != 1 {
        return Some(format!(
            "{}: {} requires, {} ensures",
            row.function,
            f.requires.len(),
            f.ensures.len()
        ));
    }
    let Some((left, right)) = f.ensures[0].split_once(" ≡ ") else {
        return Some(format!("{}: no equation", row.function));
    };
    if right.contains('≡')
        || right.contains('×')
        || !right.starts_with(&format!("{} ", row.definition))
    {
        return Some(format!(
            "{}: not one equation with {}",
            row.function, row.definition
        ));
    }
    for (param, kind) in &f.params {
        let is_lent = kind.starts_with("&mut ");
        let value = match kind.starts_with('&') {
            true if is_lent => format!("{param}.old"),
            true => format!("{param}.now"),
            false => param.clone(),
        };
        // a record's field may have the parameter's name, and that is not the parameter
        if !names(&right.replace(&format!("{param} = "), ""), &value) {
            return Some(format!(
                "{}: {} does not have {param}",
                row.function, row.definition
            ));
        }
        if is_lent && !names(left, &format!("{param}.new")) {
            return Some(format!(
                "{}: nothing is said of {param} afterwards",
                row.function
            ));
        }
    }
    None
}
