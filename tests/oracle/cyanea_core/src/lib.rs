//! Stands in for the crate of this name: only what `rna_structure.rs` uses of it.

#[derive(Debug, Clone, PartialEq, Eq)]
pub enum CyaneaError {
    Parse(String),
    InvalidInput(String),
}

pub type Result<T> = std::result::Result<T, CyaneaError>;
