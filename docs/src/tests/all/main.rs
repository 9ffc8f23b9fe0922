//! All tests, in one binary.

mod arbiter;
mod build;
mod calls;
mod check;
mod items;
mod older;
mod program;
mod random;
mod refusals;
mod registers;
mod reset_calls;
mod reset_files;
mod resets;
mod routes;
mod saved;
mod saved_calls;
mod saved_files;
mod script;
mod seat_calls;
mod seat_files;
mod seats;
mod special;
