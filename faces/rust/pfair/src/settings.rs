use pfair_sys::raw::pfair_setup;

/// What a desk is opened with.
#[derive(Clone, Copy, Debug, PartialEq, Eq, Hash)]
pub struct Settings {
    /// 1 to 64.
    pub processors: u64,
    /// A number that each period divides, 1 to 2^30.
    pub base: u64,
    /// The most load, in 1/base, 1 to 2^44. `processors * base` fills the processors.
    pub cap: u64,
    /// A checkpoint is kept each so many slots, 1 to 4,096. A change of the past is replayed from the last one before it.
    pub every: u64,
    /// Whether the desk has 2^22 slots in place of 2^20.
    pub wide: bool,
}

impl Settings {
    /// So many processors with this base: the cap fills them, and a checkpoint is kept each 64 slots.
    ///
    /// ```
    /// let settings = pfair::Settings { wide: true, ..pfair::Settings::new(4, 1_000) };
    /// assert_eq!(settings.cap, 4_000);
    /// ```
    pub const fn new(processors: u64, base: u64) -> Self {
        Settings { processors, base, cap: processors.saturating_mul(base), every: 64, wide: false }
    }
}

impl From<pfair_setup> for Settings {
    fn from(raw: pfair_setup) -> Self {
        let pfair_setup { processors, base, cap, every, horizon } = raw;
        Settings { processors, base, cap, every, wide: horizon > 1 << 20 }
    }
}
