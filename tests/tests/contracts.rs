//! The tables in the head of the demands (crates/demands/specs/Demands.antt) held to the contracts in src/: each function's contract is
//! one equation with the definition that the table names, from the module that it names. So a contract that cites another definition, which
//! the demands do not speak of, is noticed.

use planner_tests::contracts::{
    brings, crates, fault, functions, names, sources, tables, text, Function, Row,
};

fn demands() -> Vec<Vec<Row>> {
    tables(&text(&crates().join("demands/specs/Demands.antt")))
}

fn source_of(row: &Row) -> String {
    let (crate_name, _) = row.function.split_once("::").unwrap();
    text(&crates().join(crate_name).join("src/lib.rt"))
}

#[test]
fn each_contract_cites_the_definition_of_its_table() {
    let tables = demands();
    assert_eq!(tables.len(), 2);
    for row in tables.iter().flatten() {
        assert_eq!(fault(row, &source_of(row)), None);
    }
}

/// Each row of the first table names demands there are, and every operation is in it.
#[test]
fn the_first_table_has_every_operation() {
    let listed: Vec<String> = demands()[0]
        .iter()
        .map(|row| row.function.clone())
        .collect();
    let operations = [
        "network::open",
        "reach::reach",
        "count::count",
        "order::order",
        "cost::cost",
        "charge::charge",
        "page::page",
        "pick::pick",
        "index::build",
        "fetch::fetch",
        "front::front",
        "office::office",
        "edge_read::read",
        "edge_write::write",
        "survey::survey",
    ];
    assert_eq!(listed, operations);
    let said = text(&crates().join("demands/specs/Demands.antt"));
    for row in &demands()[0] {
        for demand in row.last.split(", ") {
            let record = said
                .split(&format!("-- Demand {demand}"))
                .nth(1)
                .unwrap_or_else(|| panic!("{}: there is no demand {demand}", row.function));
            let record = record.split("\n-- Demand ").next().unwrap();
            assert!(
                names(record, &row.definition),
                "demand {demand} does not speak of {}",
                row.definition
            );
        }
    }
}

/// What the static library exports: all its public functions.
fn exports() -> Vec<Function> {
    let exports = functions(&text(&crates().join("planner_static/src/lib.rt")));
    assert!(exports.iter().all(|f| f.exported));
    exports
}

/// Each function of planner_c is exported under its own name, with its own parameters and its own clauses, and nothing else is.
#[test]
fn each_export_says_what_its_function_says() {
    let source = text(&crates().join("planner_static/src/lib.rt"));
    let functions = functions(&text(&crates().join("planner_c/src/lib.rt")));
    let exports = exports();
    assert_eq!(functions.len(), exports.len());
    for (function, export) in functions.iter().zip(&exports) {
        assert!(!function.exported, "{}", function.name);
        let said = |f: &Function| {
            let clauses = (f.requires.clone(), f.ensures.clone());
            (f.name.clone(), f.params.clone(), clauses)
        };
        assert_eq!(said(export), said(function));
        // with the name of a clause comes its meaning: both crates take it from one module
        let (_, right) = export.ensures[0].split_once(" ≡ ").unwrap();
        let definition = right.split(' ').next().unwrap();
        let module = "Rattle.planner_c.specs.Calls";
        assert!(brings(&source, "ghost use", module, definition));
    }
}

/// The second table has every function that Rust and C can call, and each hands on the definition of an operation.
#[test]
fn the_second_table_hands_on_the_first() {
    let tables = demands();
    let mut there: Vec<String> = exports()
        .iter()
        .map(|f| format!("planner_c::{}", f.name))
        .collect();
    let mut listed: Vec<String> = tables[1].iter().map(|row| row.function.clone()).collect();
    listed.sort();
    there.sort();
    assert_eq!(listed, there);

    let calls = text(&crates().join("planner_c/specs/Calls.antt"));
    for row in &tables[1] {
        let operation = tables[0]
            .iter()
            .find(|operation| operation.definition == row.last)
            .unwrap_or_else(|| panic!("{}: {} is of no operation", row.function, row.last));
        let module = format!("Rattle.{}.specs.{}", operation.crate_name, operation.module);
        assert!(
            brings(&calls, "use", &module, &row.last),
            "{}",
            row.function
        );
        let clause = calls
            .split(&format!("\n{} ", row.definition))
            .nth(1)
            .unwrap_or_else(|| panic!("{} is not defined", row.definition));
        let clause = clause.split("\n\n").next().unwrap();
        assert!(
            names(clause, &row.last),
            "{} does not hand on {}",
            row.definition,
            row.last
        );
    }
}

/// Functions of the search for the front whose answer is left open: which tree is found in a box, and so which vector stands
/// for equal ones, is the search's own choice. They promise what the answer tells, by a definition of the crate `completions`.
const BY_WHAT_IT_TELLS: [(&str, &str, &str); 3] = [
    ("find", "find", "Answers"),
    ("least", "least", "Lowered"),
    ("branch", "opens", "Tells"),
];

/// Every public function of every crate is for all inputs, and promises an equation, or what its answer tells.
#[test]
fn no_public_function_requires_anything() {
    let mut seen = 0;
    let mut open = 0;
    for (crate_name, source) in sources() {
        for f in functions(&source) {
            assert!(f.requires.is_empty(), "{crate_name}::{} requires", f.name);
            let said = BY_WHAT_IT_TELLS
                .iter()
                .find(|row| (row.0, row.1) == (crate_name.as_str(), f.name.as_str()))
                .map_or("≡", |row| row.2);
            assert!(
                f.ensures.iter().any(|clause| clause.contains(said)),
                "{crate_name}::{} does not say its outcome by {said}",
                f.name
            );
            open += usize::from(said != "≡");
            seen += 1;
        }
    }
    assert!(seen > 50, "{seen} public functions were read");
    assert_eq!(open, BY_WHAT_IT_TELLS.len());
}

/// The test itself can fail: each of these changes of a contract is noticed.
#[test]
fn a_contract_that_says_something_else_is_noticed() {
    let page = [
        ("≡ page_call file.now", "≡ page_other file.now"),
        ("Operations.{page_call}", "Operations.{page_checks}"),
        ("buffers = page.new } ≡ page_call", "buffers = page.old } ≡ page_call"),
        ("≡ page_call file.now page.old start.now", "≡ page_call file.now page.old []"),
        ("pub fn page(file: &[u8], page: &mut [u16], start: &[u16]) -> Result<Filled, Refusal>\n", "pub fn page(file: &[u8], page: &mut [u16], start: &[u16]) -> Result<Filled, Refusal>\n    requires { 0 < length file.now }\n"),
    ];
    // a parameter that stands in a record
    let office = [
        ("rows.now office h (record { first = first;", "rows.now office h (record { first = 0;"),
        ("office h (record { first = first; second = second }) (record { costs = costs.old; witnesses = witnesses.old }) }\n{\n    let path", "office h (record { first = first; second = second }) (record { costs = []; witnesses = witnesses.old }) }\n{\n    let path"),
    ];
    for (function, changes) in [("page::page", &page[..]), ("office::office", &office[..])] {
        let row = demands()[0]
            .iter()
            .find(|row| row.function == function)
            .unwrap()
            .clone();
        let source = source_of(&row);
        for (old, new) in changes {
            assert_eq!(source.matches(old).count(), 1, "{old}");
            assert!(fault(&row, &source.replace(old, new)).is_some(), "{new}");
        }
    }
}
