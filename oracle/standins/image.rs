//! A stand-in for the vendor's image type: bytes in row order with their sides and colour space.

use crate::{Result, SilvestreError};

/// How many bytes a pixel has.
#[derive(Debug, Clone, Copy, PartialEq, Eq)]
pub enum ColorSpace {
    Grayscale,
    Rgb,
    Rgba,
}

impl ColorSpace {
    /// Bytes a pixel.
    pub fn channels(self) -> usize {
        match self {
            ColorSpace::Grayscale => 1,
            ColorSpace::Rgb => 3,
            ColorSpace::Rgba => 4,
        }
    }
}

/// A picture that owns its bytes.
#[derive(Debug, Clone)]
pub struct SilvestreImage {
    pixels: Vec<u8>,
    width: u32,
    height: u32,
    color_space: ColorSpace,
}

impl SilvestreImage {
    /// A picture, or an error where the number of bytes is not what the sides ask for.
    pub fn new(pixels: Vec<u8>, width: u32, height: u32, color_space: ColorSpace) -> Result<Self> {
        if pixels.len() != width as usize * height as usize * color_space.channels() {
            return Err(SilvestreError::InvalidParameter("the number of bytes does not fit the sides".into()));
        }
        Ok(Self { pixels, width, height, color_space })
    }

    pub fn width(&self) -> u32 {
        self.width
    }

    pub fn height(&self) -> u32 {
        self.height
    }

    pub fn color_space(&self) -> ColorSpace {
        self.color_space
    }

    pub fn pixels(&self) -> &[u8] {
        &self.pixels
    }
}
