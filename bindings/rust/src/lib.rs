//! RNA folding that is proved: a safe crate over `libyukemasop.a`.
//!
//! Every call takes any input, and refuses by the numbers of `docs/RULES.md`. The names are those
//! of `cyanea_seq::rna_structure`, so that a program that uses it changes one line.
//!
//! ```
//! assert_eq!(yukemasop::read_base(b't'), Ok(b'U'));
//! assert!(yukemasop::can_pair(b'G', b'U'));
//! assert_eq!(yukemasop::pair_index(b'C', b'G'), Some(3));
//! ```

mod bases;
#[cfg(feature = "bridge")]
mod bridge;
mod counting;
mod editor;
mod energy;
mod ffi;
pub mod folds;
mod refusal;
mod structure;
pub mod tables;

pub use bases::{can_pair, pair_index, read_base};
pub use counting::{nussinov, NussinovResult};
pub use editor::Editor;
pub use energy::{zuker_mfe, MfeResult};
pub use refusal::{Refusal, Result};
pub use structure::{base_pair_distance, mountain_distance, RnaSecondaryStructure};

/// The version of the library that is linked: major, minor, patch.
pub fn version() -> (u32, u32, u32) {
    // SAFETY: it takes nothing and returns a number.
    let version = unsafe { ffi::ykm_version() };
    (version / 10_000, version / 100 % 100, version % 100)
}
