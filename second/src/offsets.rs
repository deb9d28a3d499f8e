//! Offsets of region 0 that more than a table speaks of.

pub const APERTURE_ONE_CONTROL: u32 = 0x50;
pub const APERTURE_TWO_CONTROL: u32 = 0x58;
pub const BYPASS_WRITE_MASK: u32 = 0x1100;
pub const SCREEN_BASE: u32 = 0x3000;
pub const SCREEN_STRIDE: u32 = 0x3008;
pub const VIDEO_CONTROL: u32 = 0x3058;
pub const SCREEN_BASE_RIGHT: u32 = 0x3080;
pub const PALETTE_WRITE_ADDRESS: u32 = 0x4000;
pub const PALETTE_DATA: u32 = 0x4008;
pub const PIXEL_MASK: u32 = 0x4010;
pub const PALETTE_READ_ADDRESS: u32 = 0x4018;
pub const INDEXED_DATA: u32 = 0x4050;
