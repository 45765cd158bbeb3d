//! All tests of the model in one program. Expected values come from document 01
//! and requests 1 to 3, 5 and 6 of document 02, or from the reasoning written
//! beside them.

mod book;
mod by_value;
mod damaged;
mod draw;
mod edges;
mod form;
mod kinds;
mod nap;
mod orders;
mod program;
mod ranks;
mod ranks_in_scripts;
mod refusals;
mod rules;
mod runs;
mod script;
mod sheet;
mod tools;
mod totals;
mod values;
mod withdraw;
