//! What a refusal and a success do to an output buffer.

use crate::{Answer, Refusal};

/// A refusal with its place.
pub type Refused = (Refusal, usize);

/// A refusal without a place. 'Each comes with a place: the instruction for 1 to 4
/// and 8, the bundle for 11, else 0.'
pub fn refuse<T>(refusal: Refusal) -> Result<T, Refused> {
    Err((refusal, 0))
}

/// '9: output too short.'
pub fn room_for(needed: usize, room: usize) -> Result<(), Refused> {
    if room < needed {
        return refuse(Refusal::SmallOutput);
    }
    Ok(())
}

/// 'Success gives 0 and, as place, the words, bytes or commands written, else
/// 0.'
pub fn answer(outcome: Result<usize, Refused>) -> Answer {
    match outcome {
        Ok(written) => Answer::Taken(written as u32),
        Err((refusal, place)) => Answer::refused(refusal, place),
    }
}

/// 'A refusal leaves all lent memory and records untouched; success leaves
/// output past the result untouched.'
pub fn deliver<T: Copy>(result: Result<Vec<T>, Refused>, output: &mut [T]) -> Answer {
    answer(result.map(|made| {
        output[..made.len()].copy_from_slice(&made);
        made.len()
    }))
}
