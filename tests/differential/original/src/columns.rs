//! Numbers of stored columns. Relationship columns are outside the port.

pub mod column_ids {
    pub const AUTH_REFS: u32 = 0;
    pub const LINKED_REFS: u32 = 1;
    pub const PARENT_REF: u32 = 2;
    pub const PREV_REFS: u32 = 3;
    pub const RELATED_REFS: u32 = 4;
    pub const ROOT_REF: u32 = 5;
}
