//! The original, unchanged, with doors to its private functions for comparisons.

// The original is kept as it came, so what clippy would change in it is no fault.
#[allow(clippy::all)]
pub mod rna_structure {
    include!(concat!(env!("OUT_DIR"), "/rna_structure.rs"));

    /// The private functions that comparisons call; only a module inside can reach them.
    pub mod doors {
        use cyanea_core::Result;

        pub fn can_pair(a: u8, b: u8) -> bool {
            super::can_pair(a, b)
        }

        pub fn pair_index(a: u8, b: u8) -> Option<usize> {
            super::pair_index(a, b)
        }

        pub fn normalize_rna(seq: &[u8]) -> Result<Vec<u8>> {
            super::normalize_rna(seq)
        }

        pub fn stacking_energy(i5: u8, j5: u8, i3: u8, j3: u8) -> f64 {
            super::stacking_energy(i5, j5, i3, j3)
        }

        pub fn terminal_mismatch(ci: u8, cj: u8, ni: u8, nj: u8) -> f64 {
            super::terminal_mismatch(ci, cj, ni, nj)
        }

        pub fn hairpin_energy(seq: &[u8], i: usize, j: usize) -> f64 {
            super::hairpin_energy(seq, i, j)
        }

        pub fn internal_loop_energy(seq: &[u8], i: usize, j: usize, p: usize, q: usize) -> f64 {
            super::internal_loop_energy(seq, i, j, p, q)
        }
    }
}
