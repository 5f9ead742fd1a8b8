//! A polynomial length, named by primus_lattice's dimension.rs and never made.

#[derive(Clone, Copy, Debug)]
pub struct PolyLength(usize);

impl PolyLength {
    pub fn get(self) -> usize {
        self.0
    }
}
