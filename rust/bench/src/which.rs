//! Whose work is timed.

/// In the order of the tables' columns.
#[derive(Clone, Copy, Debug, PartialEq, Eq)]
pub enum Which {
    /// The proved library.
    Proved,
    /// Hand-tuned C (`hand/hand.c`), where a compiler was found for it.
    #[cfg(hand_c)]
    C,
    /// Plain safe Rust (`model`).
    Rust,
}

impl Which {
    /// All that were built; the others are compared with the first.
    pub const ALL: &'static [Which] = &[
        Which::Proved,
        #[cfg(hand_c)]
        Which::C,
        Which::Rust,
    ];

    pub fn name(self) -> &'static str {
        match self {
            Which::Proved => "proved",
            #[cfg(hand_c)]
            Which::C => "C",
            Which::Rust => "Rust",
        }
    }

    pub fn of(name: &str) -> Option<Which> {
        let named = |which: &&Which| which.name().eq_ignore_ascii_case(name);
        Which::ALL.iter().find(named).copied()
    }
}
