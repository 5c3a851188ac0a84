//! Stand-ins for the module roots that the vendor's texts lean on. The texts themselves come from build.rs; here is only as much of the
//! image type, the errors and the roots as they need to compile.

mod error;
mod image;

pub use error::SilvestreError;
pub use image::{ColorSpace, SilvestreImage};

/// What every call of the texts that can fail returns.
pub type Result<T> = std::result::Result<T, SilvestreError>;

/// The root of the effects: only the grayscale text.
pub mod effects {
    include!(concat!(env!("OUT_DIR"), "/effects.rs"));
}

/// The root of the filters: the trait, the seven texts, and the copy of canny.rs with two arms exchanged.
pub mod filters {
    use crate::{Result, SilvestreImage};

    include!(concat!(env!("OUT_DIR"), "/filters.rs"));

    /// What the filters implement.
    pub trait Filter: Send + Sync {
        /// A new picture from the given one.
        fn apply(&self, image: &SilvestreImage) -> Result<SilvestreImage>;
    }
}

/// The colour conversions that the grayscale text names. One-channel pictures never reach them.
pub mod simd {
    /// Not compared: the port takes one channel only.
    pub fn grayscale_rgb(_src: &[u8], _dst: &mut [u8]) {
        unreachable!("the oracle makes one-channel pictures only")
    }

    /// Not compared: the port takes one channel only.
    pub fn grayscale_rgba(_src: &[u8], _dst: &mut [u8]) {
        unreachable!("the oracle makes one-channel pictures only")
    }
}
