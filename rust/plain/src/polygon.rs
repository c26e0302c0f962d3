//! Rooms as polygons in Well-Known Binary, with floats put together bit by bit; and polygons as chains, with the floats of the
//! machine.

use std::collections::HashSet;

use answer::{MOST_STEPS, Refusal};

use crate::grid::{Corner, corners};
use crate::hull;

/// Writes the room with this start and chain to the start of `out`, and answers how many bytes its polygon has.
pub fn polygon_of_room(start: Corner, chain: &[u8], out: &mut [u8]) -> Result<usize, Refusal> {
    judge(start, chain)?;
    let polygon = polygon(&points(start, chain));
    let part = out.get_mut(..polygon.len()).ok_or(Refusal::PolygonRoom)?;
    part.copy_from_slice(&polygon);
    Ok(polygon.len())
}

/// Refusals 1, 10, 4, 6 and 12.
pub fn judge(start: Corner, chain: &[u8]) -> Result<(), Refusal> {
    hull::judge(start, chain)?;
    let corners = corners(start, chain);
    let different: HashSet<_> = corners.iter().collect();
    let closed = corners.first() == corners.last();
    if closed && chain.len() >= 4 && different.len() == chain.len() {
        Ok(())
    } else {
        Err(Refusal::NotRoom)
    }
}

/// The start, each later corner where the turn is not 0, and the start again.
fn points(start: Corner, chain: &[u8]) -> Vec<Corner> {
    let mut points = vec![start];
    for (k, &corner) in corners(start, chain).iter().enumerate() {
        if (1..chain.len()).contains(&k) && chain[k - 1] != chain[k] {
            points.push(corner);
        }
    }
    points.push(start);
    points
}

/// Byte order, type, ring count, point count, points.
fn polygon(points: &[Corner]) -> Vec<u8> {
    let mut polygon = vec![1];
    for number in [3, 1, points.len() as u64] {
        polygon.extend(lowest_first(number, 4));
    }
    for &(x, y) in points {
        polygon.extend(lowest_first(float(600 * i64::from(x)), 8));
        polygon.extend(lowest_first(float(600 * i64::from(y)), 8));
    }
    polygon
}

/// The bytes of a number, the lowest first.
fn lowest_first(number: u64, bytes: u32) -> impl Iterator<Item = u8> {
    (0..bytes).map(move |i| (number >> (8 * i)) as u8)
}

/// The bits of a whole number below 2^53 as a 64-bit float: sign, exponent, and the digits after the highest.
fn float(whole: i64) -> u64 {
    let magnitude = whole.unsigned_abs();
    let Some(highest) = magnitude.checked_ilog2() else {
        return 0;
    };
    let digits = (magnitude << (52 - highest)) - (1 << 52);
    u64::from(whole < 0) << 63 | u64::from(1_023 + highest) << 52 | digits
}

/// Reads a polygon of either byte order, writes its steps to the start of `chain`, and answers its start and how many there are.
pub fn chain_of_polygon(file: &[u8], chain: &mut [u8]) -> Result<(answer::Corner, usize), Refusal> {
    let corners = ring(&floats(file)?)?;
    let steps: Vec<u8> = corners
        .windows(2)
        .flat_map(|two| run(two[0], two[1]))
        .take(MOST_STEPS + 1)
        .collect();
    if steps.len() > MOST_STEPS {
        return Err(Refusal::TooLong(MOST_STEPS as u32));
    }
    let part = chain.get_mut(..steps.len()).ok_or(Refusal::ChainRoom)?;
    part.copy_from_slice(&steps);
    Ok((corners[0].into(), steps.len()))
}

/// The coordinates of all points, x and y in turn.
fn floats(file: &[u8]) -> Result<Vec<f64>, Refusal> {
    let (header, points) = file.split_at_checked(13).ok_or(Refusal::FileLength)?;
    let little = match header[0] {
        0 => false,
        1 => true,
        _ => return Err(Refusal::FileKind),
    };
    let number = |at: usize| {
        let bytes = header[at..at + 4].try_into().expect("four bytes");
        let number = [u32::from_be_bytes, u32::from_le_bytes][usize::from(little)];
        number(bytes)
    };
    if number(1) != 3 || number(5) != 1 {
        return Err(Refusal::FileKind);
    }
    if file.len() as u64 != 13 + 16 * u64::from(number(9)) {
        return Err(Refusal::FileLength);
    }
    let float = [f64::from_be_bytes, f64::from_le_bytes][usize::from(little)];
    Ok(points.as_chunks().0.iter().copied().map(float).collect())
}

/// The corners of the points, if they are a ring.
fn ring(floats: &[f64]) -> Result<Vec<Corner>, Refusal> {
    let mut corners = Vec::new();
    for (i, point) in floats.chunks(2).enumerate() {
        let most = if i == 0 { 9_830_400.0 } else { 19_660_800.0 };
        if point
            .iter()
            .any(|float| float % 600.0 != 0.0 || float.abs() > most)
        {
            return Err(Refusal::BadCoordinate);
        }
        corners.push(((point[0] / 600.0) as i32, (point[1] / 600.0) as i32));
    }
    let straight = |two: &[Corner]| (two[0].0 == two[1].0) != (two[0].1 == two[1].1);
    let closed = corners.len() >= 4 && corners.first() == corners.last();
    if closed && corners.windows(2).all(straight) {
        Ok(corners)
    } else {
        Err(Refusal::BadRing)
    }
}

/// The steps from one corner straight to another.
fn run(from: Corner, to: Corner) -> impl Iterator<Item = u8> {
    let (east, north) = (to.0 - from.0, to.1 - from.1);
    let step = match (east.signum(), north.signum()) {
        (1, _) => 0,
        (-1, _) => 2,
        (_, 1) => 1,
        _ => 3,
    };
    std::iter::repeat_n(step, (east.abs() + north.abs()) as usize)
}

#[cfg(test)]
mod tests {
    use super::*;

    #[test]
    fn every_coordinate_has_the_bits_of_its_float() {
        for v in -32_768..=32_768_i32 {
            assert_eq!(float(600 * i64::from(v)), f64::from(600 * v).to_bits());
        }
    }
}
