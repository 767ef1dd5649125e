//! Stands for the crate byteorder: what the strategies' settings are written with when a store keeps them. Nothing here asks for that.

/// Numbers are written with their low byte first.
pub enum LittleEndian {}

/// Writing of plain numbers.
pub trait WriteBytesExt: std::io::Write {
    /// Writes one byte.
    fn write_u8(&mut self, n: u8) -> std::io::Result<()> {
        self.write_all(&[n])
    }

    /// Writes the four bytes of a float.
    fn write_f32<Order>(&mut self, n: f32) -> std::io::Result<()> {
        self.write_all(&n.to_le_bytes())
    }
}

impl<W: std::io::Write> WriteBytesExt for W {}
