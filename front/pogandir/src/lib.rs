//! The front end: walks listed, checked against what is expected, shown as a sheet,
//! and turned from words to bytes and back. The engine decides; nothing here does.

pub mod answers;
pub mod check;
pub mod commands;
pub mod ending;
pub mod expect;
pub mod expression;
pub mod faults;
pub mod forms;
pub mod json;
pub mod listed;
pub mod message;
pub mod notation;
pub mod options;
pub mod plain;
pub mod realm;
pub mod reason;
pub mod record;
pub mod script;
pub mod sentence;
pub mod sheet;
pub mod source;
pub mod tokens;
pub mod vocabulary;
pub mod walk;
