//! Which rows of a file are erased: a flag for each.

pub struct DeletionVector(pub Vec<bool>);

impl DeletionVector {
    pub fn is_deleted(&self, row: u64) -> bool {
        self.0.get(row as usize).copied().unwrap_or(false)
    }
}
