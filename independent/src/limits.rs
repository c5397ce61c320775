//! The most bytes of a text, the most rows of each list, and the room of the
//! tables that the programs lend.

pub const TEXT_BYTES: usize = 65_536;
pub const STRING_BYTES: usize = 255;

pub const TEXTURES: usize = 16;
pub const COLOURS: usize = 256;
pub const MATERIALS: usize = 64;
pub const POINTS: usize = 2_048;
pub const NORMALS: usize = 2_048;
pub const BONES: usize = 128;
pub const UVS: usize = 4_096;
pub const FACES: usize = 1_024;
pub const GROUPS: usize = 32;
pub const KEYS: usize = 4_096;
pub const PATTERNS: usize = 256;

pub const TOTAL_FRAMES: i64 = 32_767;

/// Room of the table of the figure listing.
pub const FIGURE_ROOM: usize = 8_192;
/// Room of the table of the movement listing: the greatest total there is.
pub const MOVEMENT_ROOM: usize = 3 + 22 * BONES + 2 * KEYS + 3 * PATTERNS;
