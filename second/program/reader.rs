//! Little-endian fields read one after the other.

/// A field that is not all there reads as zeros, so that no bytes whatever can make it fail.
pub struct Reader<'b> {
    rest: &'b [u8],
}

impl<'b> Reader<'b> {
    pub fn over(bytes: &'b [u8]) -> Reader<'b> {
        Reader { rest: bytes }
    }

    pub fn bytes<const N: usize>(&mut self) -> [u8; N] {
        let Some((field, rest)) = self.rest.split_first_chunk() else {
            self.rest = &[];
            return [0; N];
        };
        self.rest = rest;
        *field
    }

    pub fn byte(&mut self) -> u8 {
        u8::from_le_bytes(self.bytes())
    }

    /// A number of one byte.
    pub fn small(&mut self) -> usize {
        usize::from(self.byte())
    }

    /// A number of two bytes.
    pub fn large(&mut self) -> usize {
        usize::from(u16::from_le_bytes(self.bytes()))
    }

    pub fn value(&mut self) -> i32 {
        i32::from_le_bytes(self.bytes())
    }
}
