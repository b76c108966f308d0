//! What the tests of the proved library share: the calls, the programs, a generator of numbers, network files, what damages them,
//! networks and drawn rows, networks of known shapes, lent buffers, the calls that write bytes, the library's list by its pages, how
//! often what is counted came, the contracts in src/ as text, and independent code for document 01 in plain Rust: `reading`,
//! `trees`, `costs` and `operations`, for two offices in one table `offices`, for the number of trees `counts`, for trees by number
//! `indexes`, with what damages an index, for DIMACS edge files `dimacs`, with what damages a text, and for a newer survey over an
//! older `surveys`; and for larger networks the front by a walk (`walk`, `walked`) and by a search (`search`), which of the two the
//! library goes by (`choice`), and the networks of the study of that search (`study`).

pub mod calls;
pub mod choice;
pub mod contracts;
pub mod costs;
pub mod counts;
pub mod damage;
pub mod dimacs;
pub mod dimacs_damage;
pub mod draw;
pub mod ffi;
pub mod file;
pub mod index_damage;
pub mod indexes;
pub mod lent;
pub mod offices;
pub mod operations;
pub mod pages;
pub mod program;
pub mod reading;
pub mod rng;
pub mod search;
pub mod seen;
pub mod shapes;
pub mod study;
pub mod surveys;
pub mod trees;
pub mod walk;
pub mod walked;
