//! Every call and every refusal, from outside of the crate.

mod files;
mod helpers;
mod names;
mod rows;
mod searches;
mod unsound;
mod volumes;
