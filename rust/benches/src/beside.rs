//! Two builds of the library in one process, with the pages and the twin: what a change of the code brings.

use std::path::Path;

use compare::inputs;
use compare::loaded::Loaded;

use crate::race::{Call, Race, race};
use crate::{SIZES, calls, loaded, ns, page, polygons_of, programs, several};

/// The shapes of walks, of operations and of rooms.
const WALKS: [&str; 4] = ["spiral", "comb", "room", "grown"];
const OPERATIONS: [&str; 5] = ["spiral", "comb", "room", "grown", "taken-back"];
const ROOMS: [&str; 5] = ["closed-spiral", "closed-comb", "room", "grown", "oval"];
/// The walks of outlines: the boxes of long ovals and stairs fit no map.
const OUTLINED: [&str; 6] = ["spiral", "comb", "room", "grown", "oval", "stairs"];
const CONVEX: [&str; 4] = ["oval", "closed-spiral", "room", "grown"];

/// Inputs of this shape, of n operations each.
fn shaped(shape: &str, n: usize) -> Vec<Vec<u8>> {
    several(n, |random| match shape {
        "spiral" => inputs::spiral(n),
        "comb" => inputs::comb(n, 30),
        "closed-spiral" => inputs::closed_spiral(n),
        "closed-comb" => inputs::closed_comb(n, 30),
        "room" => inputs::room(n, random),
        "grown" => inputs::grown(n, random),
        "oval" => inputs::oval(n, n / 4),
        "stairs" => inputs::stairs(n),
        "taken-back" => inputs::hesitant(n, 45, 0, random),
        "panel" => vec![0, 1, 2, 3],
        _ => unreachable!("no such shape: {shape}"),
    })
}

/// The frames of these operations.
fn framed(walks: &[Vec<u8>]) -> Vec<Vec<u8>> {
    walks.iter().map(|ops| inputs::frame(0, ops)).collect()
}

/// The library of today and the one of before.
pub struct Builds {
    after: &'static Loaded,
    before: &'static Loaded,
}

impl Builds {
    /// Races the call of both builds, of the page and of the twin.
    fn race<'a>(&self, of: impl Fn(&'static Loaded) -> Call<'a>, twin: Call<'a>) -> Race {
        let mut contestants = vec![("after", of(self.after)), ("before", of(self.before))];
        contestants.extend(page().map(|page| ("page", of(page))));
        contestants.push(("twin", twin));
        race(contestants)
    }

    fn walk(&self, inputs: &[Vec<u8>]) -> Race {
        self.race(
            |of| loaded::walk(of, inputs),
            calls::walk(twin::walk, inputs),
        )
    }

    fn hull(&self, inputs: &[Vec<u8>]) -> Race {
        self.race(
            |of| loaded::hull(of, inputs),
            calls::hull(twin::hull, inputs),
        )
    }

    fn outline(&self, inputs: &[Vec<u8>]) -> Race {
        self.race(
            |of| loaded::outline(of, inputs),
            calls::outline(twin::outline, inputs),
        )
    }

    fn polygon(&self, inputs: &[Vec<u8>]) -> Race {
        self.race(
            |of| loaded::polygon(of, inputs),
            calls::polygon(twin::polygon_of_room, inputs),
        )
    }

    fn rows(&self, inputs: &[Vec<u8>]) -> Race {
        self.race(
            |of| loaded::rows(of, inputs),
            calls::rows(twin::rows, inputs),
        )
    }

    fn overlay(&self, inputs: &[Vec<u8>]) -> Race {
        self.race(
            |of| loaded::overlay(of, inputs),
            calls::overlay(twin::overlay, inputs),
        )
    }

    fn convex(&self, inputs: &[Vec<u8>]) -> Race {
        self.race(
            |of| loaded::convex(of, inputs),
            calls::convex(twin::convex, inputs),
        )
    }

    fn chain(&self, rooms: &[Vec<u8>]) -> Race {
        let files = polygons_of(rooms, true);
        self.race(
            |of| loaded::chain(of, &files),
            calls::chain(twin::chain_of_polygon, &files),
        )
    }

    fn line(&self, walks: &[Vec<u8>]) -> Race {
        let lines = framed(walks);
        self.race(
            |of| loaded::line(of, &lines),
            calls::line(twin::line, &lines),
        )
    }
}

/// Prints the time of a race's first contestant, and its ratios to the others, as cells of a table.
fn print_cells(race: &Race, unit: impl Fn(f64) -> f64) {
    print!(" {:.1} |", unit(race.seconds()));
    for (_, ratio) in race.ratios() {
        print!(" {ratio:.2} |");
    }
}

/// Prints the first lines of a table, for these sizes, or without any.
fn print_head(title: &str, sizes: &[&str]) {
    let others = if page().is_some() {
        " /before | /page | /twin |"
    } else {
        " /before | /twin |"
    };
    println!("\n{title}\n");
    let columns: String = sizes
        .iter()
        .map(|size| format!(" {size} |{others}"))
        .collect();
    println!("| |{columns}");
    let cells = columns.matches('|').count();
    println!("|---|{}", "---|".repeat(cells));
}

/// Prints the table of a call on these shapes.
fn print_call(title: &str, shapes: &[&str], call: impl Fn(&[Vec<u8>]) -> Race) {
    print_head(title, &["64", "1,024", "16,384"]);
    for shape in shapes {
        print!("| {shape} |");
        for n in SIZES {
            print_cells(&call(&shaped(shape, n)), ns);
        }
        println!();
    }
}

/// Prints all tables, for two folders with a library and a program each: of before and of today.
pub fn print(before: &Path, after: &Path) {
    let open = |folder: &Path| Loaded::open(&folder.join("libundrwyth.so"), "undrwyth");
    let builds = Builds {
        after: open(after),
        before: open(before),
    };
    let b = &builds;
    print_call("Walk, ns an operation", &OPERATIONS, |i| b.walk(i));
    print_call("Hull, ns a step", &WALKS, |i| b.hull(i));
    print_call("Outline, ns a step of the walk", &OUTLINED, |i| {
        b.outline(i)
    });
    print_call("Polygon, ns a step", &ROOMS, |i| b.polygon(i));
    print_call("Rows, ns a step", &ROOMS, |i| b.rows(i));
    print_call("Overlay, ns a step of one of the two rooms", &ROOMS, |i| {
        b.overlay(i)
    });
    print_call("Convex, ns a step", &CONVEX, |i| b.convex(i));
    print_call("Chain, ns a step", &ROOMS, |i| b.chain(i));

    print_head("A call on four steps, ns", &["4"]);
    let panels = shaped("panel", 4);
    let fixed = |name: &str, race: Race| {
        print!("| {name} |");
        print_cells(&race, |seconds| 4.0 * ns(seconds));
        println!();
    };
    fixed("walk", b.walk(&panels));
    fixed("hull", b.hull(&panels));
    fixed("outline", b.outline(&panels));
    fixed("polygon", b.polygon(&panels));
    fixed("rows", b.rows(&panels));
    fixed("overlay", b.overlay(&panels));
    fixed("convex", b.convex(&panels));
    fixed("chain", b.chain(&panels));
    fixed("line", b.line(&panels));

    print_head("The program `judge`, ns a digit", &["64", "256"]);
    print!("| frames |");
    for n in [64, 256] {
        let (race, digits) = programs::judge_beside(before, after, n);
        print_cells(&race, |seconds| 1e9 * seconds / digits);
    }
    println!();
}
