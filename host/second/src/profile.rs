//! Profiles: which limits of W and frames a checker keeps to.

/// That of a desk, or that of the board inside the plotter.
#[derive(Clone, Copy, Debug, PartialEq, Eq)]
pub enum Profile {
    Desk,
    Board,
}

impl Profile {
    /// The profile that a number in a state stands for, if there is one.
    pub fn of(number: u32) -> Option<Profile> {
        [Profile::Desk, Profile::Board]
            .into_iter()
            .find(|profile| profile.number() == number)
    }

    /// Its number in a state.
    pub fn number(self) -> u32 {
        match self {
            Profile::Desk => 0,
            Profile::Board => 1,
        }
    }

    /// Whether it takes W and a number of frames: both are within its limits. Those of a desk are the limits of 11 and 9.
    pub fn takes(self, w: u32, frames: usize) -> bool {
        let (most_w, most_frames) = match self {
            Profile::Desk => (256, 64),
            Profile::Board => (32, 16),
        };
        w <= most_w && frames <= most_frames
    }
}
