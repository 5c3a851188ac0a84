//! A stand-in for the vendor's error type: the two cases that the texts make.

use crate::ColorSpace;

#[derive(Debug, Clone)]
pub enum SilvestreError {
    InvalidParameter(String),
    UnsupportedColorSpace(ColorSpace),
}
