//! Numbers out of bytes and into them, the high byte first.

/// Reads numbers one after another. There must be as many bytes as are asked for.
pub struct Reader<'a>(pub &'a [u8]);

impl Reader<'_> {
    fn take<const LENGTH: usize>(&mut self) -> [u8; LENGTH] {
        let (bytes, rest) = self.0.split_first_chunk().expect("the form has so many bytes");
        self.0 = rest;
        *bytes
    }

    /// One byte.
    pub fn one(&mut self) -> u8 {
        u8::from_be_bytes(self.take())
    }

    /// Two bytes.
    pub fn two(&mut self) -> u16 {
        u16::from_be_bytes(self.take())
    }

    /// Four bytes.
    pub fn four(&mut self) -> u32 {
        u32::from_be_bytes(self.take())
    }
}

/// The bytes of a form that are written one after another.
pub fn joined<const LENGTH: usize>(parts: &[&[u8]]) -> [u8; LENGTH] {
    parts.concat().try_into().expect("the form has so many bytes")
}
