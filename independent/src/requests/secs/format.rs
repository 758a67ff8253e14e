//! The formats of items.

/// The codes of the formats, as SEMI E5 writes them, in octal.
pub mod code {
    pub const LIST: u8 = 0o00;
    pub const BINARY: u8 = 0o10;
    pub const BOOLEAN: u8 = 0o11;
    pub const ASCII: u8 = 0o20;
    pub const I8: u8 = 0o30;
    pub const I1: u8 = 0o31;
    pub const I2: u8 = 0o32;
    pub const I4: u8 = 0o34;
    pub const F8: u8 = 0o40;
    pub const F4: u8 = 0o44;
    pub const U8: u8 = 0o50;
    pub const U1: u8 = 0o51;
    pub const U2: u8 = 0o52;
    pub const U4: u8 = 0o54;
}

/// Each format: code, name, and the bytes of one element. An element of a list is an item, and its
/// length counts those.
pub const FORMATS: [(u8, &str, u32); 14] = [
    (code::LIST, "L", 1),
    (code::BINARY, "B", 1),
    (code::BOOLEAN, "BOOLEAN", 1),
    (code::ASCII, "A", 1),
    (code::I8, "I8", 8),
    (code::I1, "I1", 1),
    (code::I2, "I2", 2),
    (code::I4, "I4", 4),
    (code::F8, "F8", 8),
    (code::F4, "F4", 4),
    (code::U8, "U8", 8),
    (code::U1, "U1", 1),
    (code::U2, "U2", 2),
    (code::U4, "U4", 4),
];

/// The bytes of one element; nothing where the code is unknown.
#[inline]
pub const fn element_size(code: u8) -> Option<u32> {
    SIZES[code as usize & 0x3F]
}

/// The same for each of the 64 codes.
const SIZES: [Option<u32>; 64] = {
    let mut sizes = [None; 64];
    let mut k = 0;
    while k < FORMATS.len() {
        sizes[FORMATS[k].0 as usize] = Some(FORMATS[k].2);
        k += 1;
    }
    sizes
};

/// The format in the letters of SEMI E5.
pub fn format_name(code: u8) -> Option<&'static str> {
    FORMATS.iter().find(|format| format.0 == code).map(|format| format.1)
}
