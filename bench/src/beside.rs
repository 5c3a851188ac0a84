//! Which of two archives the calls of the library go to, where `bench/run --beside` has built a second one in. Without it there is one.

/// One of the two archives.
#[derive(Clone, Copy, PartialEq, Eq)]
pub enum Archive {
    New,
    Old,
}

/// Whether there is a second archive, and the rows are its times beside ours instead of the vendor's.
pub const HAS_OLD: bool = cfg!(feature = "beside");

/// From now on every call of the library goes to this archive.
#[cfg(feature = "beside")]
pub fn choose(archive: Archive) {
    extern "C" {
        // Written by bench/two_archives, beside the jumps that it sets.
        fn bench_choose(old: u8);
    }
    unsafe { bench_choose(u8::from(archive == Archive::Old)) }
}

#[cfg(not(feature = "beside"))]
pub fn choose(archive: Archive) {
    assert!(archive == Archive::New, "there is no second archive in this build");
}
