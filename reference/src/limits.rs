//! The limits of document 01, and those that document 02 adds.

pub const WORK_AREA: usize = 65_536;
pub const IMAGE: usize = 8_192;
pub const PATHS_IMAGE: usize = 32_768;
pub const LINE: usize = 2_048;
pub const ROW: usize = 2_048;
pub const OPEN_EXPANSIONS: usize = 8;
pub const OPEN_IN_ARITHMETIC: usize = 32;
pub const COST_ELEMENTS: usize = 64;
pub const COST_TEXT: usize = 256;
