//! Test texts from a seed: sound and damaged figures, movements and pairs.

pub mod bone_damage;
pub mod bytes;
pub mod far_keys;
pub mod figure;
pub mod figure_damage;
pub mod figure_limits;
pub mod movement;
pub mod movement_damage;
pub mod number;
pub mod pair;
pub mod pair_damage;
pub mod piece;
pub mod piece_damage;
pub mod plan;
pub mod render;
pub mod rng;

use crate::subject::Subject;
use rng::Rng;

#[derive(Clone, Copy, Debug, PartialEq, Eq)]
pub enum Kind {
    SoundFigures,
    DamagedFigures,
    SoundMovements,
    DamagedMovements,
    SoundPairs,
    DamagedPairs,
}

impl Kind {
    pub fn from_word(word: &str) -> Option<Kind> {
        match word {
            "sound-figures" => Some(Kind::SoundFigures),
            "damaged-figures" => Some(Kind::DamagedFigures),
            "sound-movements" => Some(Kind::SoundMovements),
            "damaged-movements" => Some(Kind::DamagedMovements),
            "sound-pairs" => Some(Kind::SoundPairs),
            "damaged-pairs" => Some(Kind::DamagedPairs),
            _ => None,
        }
    }

    pub fn is_sound(self) -> bool {
        matches!(
            self,
            Kind::SoundFigures | Kind::SoundMovements | Kind::SoundPairs
        )
    }

    pub fn subject(self) -> Subject {
        match self {
            Kind::SoundFigures | Kind::DamagedFigures => Subject::Figure,
            Kind::SoundMovements | Kind::DamagedMovements => Subject::Movement,
            Kind::SoundPairs | Kind::DamagedPairs => Subject::Pair,
        }
    }
}

/// The text of this kind, seed and index; always the same.
pub fn text(kind: Kind, seed: u64, index: u64) -> Vec<u8> {
    let mut rng = Rng::new(seed, index);
    match kind {
        Kind::SoundFigures => figure::sound(&mut rng).text(&mut rng),
        Kind::SoundMovements => movement::sound(&mut rng).text(&mut rng),
        Kind::DamagedFigures => plan::damaged_figure(&mut rng),
        Kind::DamagedMovements => plan::damaged_movement(&mut rng),
        Kind::SoundPairs => pair::sound(&mut rng).text(&mut rng),
        Kind::DamagedPairs => pair_damage::damaged(&mut rng),
    }
}
