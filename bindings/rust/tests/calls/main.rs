//! The crate's calls against values that were written by hand from document 01, and against the stored reports of
//! examples/.
mod dearest;
mod differences;
mod files;
mod grammars;
mod house;
mod jobs;
mod profile;
mod refusals;
mod reports;
mod sentences;
mod tables;
mod visits;
