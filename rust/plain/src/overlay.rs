//! Two rooms laid over each other, from the sets of their panels.

use answer::{Measure, Overlaid, Refusal};

use crate::grid::Corner;
use crate::polygon;
use crate::rows;

/// Writes the spans of the panels in the first room only, in the second only and in both, each to its buffer, and answers how many panels and
/// spans there are. A room is its start and its chain.
pub fn overlay(
    one: (Corner, &[u8]),
    other: (Corner, &[u8]),
    out: [&mut [i32]; 3],
) -> Result<Overlaid, Refusal> {
    polygon::judge(one.0, one.1)?;
    polygon::judge(other.0, other.1)?;
    let (a, b) = (rows::panels(one.0, one.1), rows::panels(other.0, other.1));
    let parts = [&a - &b, &b - &a, &a & &b];
    let lists = parts.each_ref().map(rows::spans);
    if lists
        .iter()
        .zip(&out)
        .any(|(spans, out)| 3 * spans.len() > out.len())
    {
        return Err(Refusal::SpanRoom);
    }
    for (spans, out) in lists.iter().zip(out) {
        rows::write(spans, out)?;
    }
    let measure = |part: usize| Measure {
        panels: parts[part].len(),
        spans: lists[part].len(),
    };
    Ok(Overlaid {
        first: measure(0),
        second: measure(1),
        both: measure(2),
    })
}

#[cfg(test)]
mod tests {
    use super::*;
    use crate::rows::tests::inside;

    /// The rule word for word, for each panel around two rooms.
    #[test]
    fn parts_are_those_of_the_rule() {
        let u = [0, 0, 0, 1, 1, 2, 3, 2, 1, 2, 3, 3];
        let rooms = [
            &u[..],
            &[0, 1, 2, 3],
            &[3, 2, 1, 0],
            &[0, 0, 1, 2, 1, 2, 3, 3],
        ];
        for (one, other) in rooms
            .iter()
            .flat_map(|one| rooms.map(|other| (*one, other)))
        {
            for start in (-4..=4).flat_map(|x| (-4..=4).map(move |y| (x, y))) {
                let mut out = [[7; 40]; 3];
                let parts = out.each_mut().map(|list| &mut list[..]);
                let found = overlay(((0, 0), one), (start, other), parts).unwrap();
                let mut panels = [0; 3];
                for panel in (-9..9).flat_map(|row| (-9..9).map(move |x| (row, x))) {
                    let (a, b) = (inside((0, 0), one, panel), inside(start, other, panel));
                    let parts = [a && !b, b && !a, a && b];
                    for (part, measure) in
                        [found.first, found.second, found.both].iter().enumerate()
                    {
                        let spans = &out[part][..3 * measure.spans];
                        let on = |span: &[i32]| {
                            span[0] == panel.0 && (span[1]..=span[2]).contains(&panel.1)
                        };
                        assert_eq!(spans.chunks(3).any(on), parts[part]);
                        panels[part] += usize::from(parts[part]);
                    }
                }
                assert_eq!(
                    panels,
                    [found.first, found.second, found.both].map(|measure| measure.panels)
                );
            }
        }
    }
}
