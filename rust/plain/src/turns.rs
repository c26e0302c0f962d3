//! Steps to turns and back.

use answer::{MOST_INPUT, Refusal};

/// Writes the turns of `steps`: the first step, then each step minus the one before, modulo 4.
pub fn turns_of_steps(steps: &[u8], out: &mut [u8]) -> Result<(), Refusal> {
    judge(steps, out.len())?;
    let befores = std::iter::once(0).chain(steps.iter().copied());
    for ((turn, &step), before) in out.iter_mut().zip(steps).zip(befores) {
        *turn = (i32::from(step) - i32::from(before)).rem_euclid(4) as u8;
    }
    Ok(())
}

/// Writes the steps of `turns`: each is the sum, modulo 4, of the turns up to it.
pub fn steps_of_turns(turns: &[u8], out: &mut [u8]) -> Result<(), Refusal> {
    judge(turns, out.len())?;
    let mut sum = 0;
    for (step, &turn) in out.iter_mut().zip(turns) {
        sum += u32::from(turn);
        *step = (sum % 4) as u8;
    }
    Ok(())
}

/// Refusals 1, 3 and 4.
fn judge(digits: &[u8], room: usize) -> Result<(), Refusal> {
    if digits.len() > MOST_INPUT {
        return Err(Refusal::TooMany);
    }
    if room != digits.len() {
        return Err(Refusal::ResultRoom);
    }
    match digits.iter().position(|&digit| digit > 3) {
        Some(place) => Err(Refusal::BadDigit(place as u32)),
        None => Ok(()),
    }
}
