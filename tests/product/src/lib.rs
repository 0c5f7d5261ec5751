//! The inner layers of the proved product, called through the static library `probe`. Its calls are in `windosprio`.

pub mod commands;
pub mod text;
