//! Stand-in for the crate ieee754: only what rmodbus 0.13.0 calls, an f32 from and to the bits in its registers.
#![no_std]

pub trait Ieee754: Copy {
    type Bits;
    fn bits(self) -> Self::Bits;
    fn from_bits(bits: Self::Bits) -> Self;
}

impl Ieee754 for f32 {
    type Bits = u32;

    fn bits(self) -> u32 {
        self.to_bits()
    }

    fn from_bits(bits: u32) -> f32 {
        f32::from_bits(bits)
    }
}
