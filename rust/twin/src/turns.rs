//! Steps to turns and back.

use answer::{MOST_INPUT, Refusal};

/// Writes the turns of `steps`.
pub fn turns_of_steps(steps: &[u8], out: &mut [u8]) -> Result<(), Refusal> {
    judge(steps, out.len())?;
    let mut last = 0;
    for (turn, &step) in out.iter_mut().zip(steps) {
        *turn = step.wrapping_sub(last) % 4;
        last = step;
    }
    Ok(())
}

/// Writes the steps of `turns`.
pub fn steps_of_turns(turns: &[u8], out: &mut [u8]) -> Result<(), Refusal> {
    judge(turns, out.len())?;
    let mut last = 0_u8;
    for (step, &turn) in out.iter_mut().zip(turns) {
        last = last.wrapping_add(turn) % 4;
        *step = last;
    }
    Ok(())
}

/// Refusals 1, 3 and 4.
fn judge(digits: &[u8], room: usize) -> Result<(), Refusal> {
    if digits.len() > MOST_INPUT {
        return Err(Refusal::TooMany);
    }
    if room != digits.len() {
        return Err(Refusal::ResultRoom);
    }
    match digits.iter().position(|&digit| digit > 3) {
        Some(place) => Err(Refusal::BadDigit(place as u32)),
        None => Ok(()),
    }
}
