//! The proved library and programs beside plain Rust: docs/BENCHMARKS.md says what is measured and what the figures mean.

mod beside;
mod calls;
mod loaded;
mod programs;
mod race;

use std::env;
use std::path::Path;
use std::sync::LazyLock;

use calls::{
    chain, convert, convex, count_visits, hull, orthogonal, outline, overlay, polygon, rows,
    sorted_rows, walk, walk_alone, walk_two,
};
use compare::inputs::{self, Random};
use compare::loaded::{Loaded, pages};
use race::{Call, race};

/// Operations that a contestant does at each call, on as many inputs as that takes.
const OPERATIONS: usize = 16_384;
/// Operations of one input.
const SIZES: [usize; 3] = [64, 1_024, 16_384];

/// Inputs of n operations each; no two of a random kind are the same.
fn several(n: usize, mut one: impl FnMut(&mut Random) -> Vec<u8>) -> Vec<Vec<u8>> {
    let mut random = Random(1);
    (0..OPERATIONS / n).map(|_| one(&mut random)).collect()
}

/// Walks of n steps, by the name of their shape.
fn chains(n: usize) -> Vec<(&'static str, Vec<Vec<u8>>)> {
    vec![
        ("spiral", several(n, |_| inputs::spiral(n))),
        ("closed-spiral", several(n, |_| inputs::closed_spiral(n))),
        ("comb", several(n, |_| inputs::comb(n, 30))),
        ("closed-comb", several(n, |_| inputs::closed_comb(n, 30))),
        ("room", several(n, |random| inputs::room(n, random))),
        ("grown", several(n, |random| inputs::grown(n, random))),
        ("random", several(n, |random| inputs::wander(n, random))),
        ("straight", several(n, |_| inputs::straight(n, 0))),
        ("stairs", several(n, |_| inputs::stairs(n))),
    ]
}

/// Seconds of a call as nanoseconds an operation.
fn ns(seconds: f64) -> f64 {
    1e9 * seconds / OPERATIONS as f64
}

/// The pages; none if there is no g++.
fn page() -> Option<&'static Loaded> {
    static PAGE: LazyLock<Option<&'static Loaded>> = LazyLock::new(|| {
        let own = env::current_exe().expect("it is running");
        let page = pages(own.parent().expect("a file is in a folder"));
        if page.is_none() {
            eprintln!("bench: g++ is not there: the pages are not measured");
        }
        page
    });
    *PAGE
}

/// These contestants, and the page if it is there.
fn paged<'a>(
    mut contestants: Vec<(&'static str, Call<'a>)>,
    of: impl Fn(&'static Loaded) -> Call<'a>,
) -> Vec<(&'static str, Call<'a>)> {
    contestants.extend(page().map(|page| ("page", of(page))));
    contestants
}

fn main() {
    let words: Vec<_> = env::args().skip(1).collect();
    match words.iter().map(String::as_str).collect::<Vec<_>>()[..] {
        [] => print(),
        ["--beside", before, after] => beside::print(Path::new(before), Path::new(after)),
        _ => panic!("benches [--beside BEFORE AFTER]"),
    }
}

fn print() {
    println!("\nwalk, ns an operation");
    walks();
    println!("\ntwo parties, ns an operation of either");
    pairs();
    println!("\nhull, ns a step");
    hulls();
    println!("\noutline, ns a step of the walk");
    outlines();
    println!("\nrooms as polygons, ns a step");
    polygons();
    println!("\nrooms by rows, ns a step");
    rows_of_rooms();
    println!("\ntwo rooms laid over each other, ns a step of one");
    overlays();
    println!("\nconvex rooms, ns a step");
    convexes();
    println!("\northogonal hulls, ns a step of the room");
    orthogonals();
    println!("\northogonal hulls of rooms of 16384 steps in larger blocks, ns a step of the room");
    blocks();
    println!("\npolygons as chains, MB/s of the file");
    files();
    println!("\nturns, ns a digit");
    turns();
    println!("\nprograms on lines, MB/s of input and lines a second");
    programs::print();
    println!("\ngrowth: one walk of 16384 steps and two of 8192, ns a step");
    growth();
}

fn walks() {
    for n in SIZES {
        for (shape, inputs) in operations(n) {
            race(paged(
                vec![
                    ("proved", walk(undrwyth::walk, &inputs)),
                    ("twin", walk(twin::walk, &inputs)),
                    ("map", count_visits(&inputs)),
                ],
                |page| loaded::walk(page, &inputs),
            ))
            .print(&format!("walk/{shape}/{n}"), ns);
        }
    }
}

/// Walks of n operations, by the name of their shape.
fn operations(n: usize) -> Vec<(&'static str, Vec<Vec<u8>>)> {
    let taken_back = several(n, |random| inputs::hesitant(n, 45, 0, random));
    [chains(n), vec![("taken-back", taken_back)]].concat()
}

/// The operations of two parties that walk by turns: party 0 the first half of each walk, party 1 that of the next.
fn by_turns(walks: &[Vec<u8>]) -> Vec<Vec<u8>> {
    let of = |i: usize| {
        let half = |walk: &'_ Vec<u8>| walk[..walk.len() / 2].to_vec();
        let (one, two) = (half(&walks[i]), half(&walks[(i + 1) % walks.len()]));
        let bytes = one.into_iter().zip(two);
        bytes.flat_map(|(one, two)| [one, 16 + two]).collect()
    };
    (0..walks.len()).map(of).collect()
}

/// Two parties that share what is near their starts, beside the same operations of each party alone.
fn pairs() {
    for n in SIZES {
        for (shape, inputs) in operations(n) {
            let pairs = by_turns(&inputs);
            race(vec![
                ("proved", walk_two(undrwyth::walk_two, &pairs)),
                ("twin", walk_two(twin::walk_two, &pairs)),
                ("alone", walk_alone(undrwyth::walk, &pairs)),
            ])
            .print(&format!("pair/{shape}/{n}"), ns);
        }
        // Each new node looks for its record through all that are in use.
        let refilled = several(n, |_| inputs::refilled(n));
        race(vec![
            ("proved", walk_two(undrwyth::walk_two, &refilled)),
            ("twin", walk_two(twin::walk_two, &refilled)),
        ])
        .print(&format!("pair/refilled/{n}"), ns);
    }
}

fn hulls() {
    for n in SIZES {
        for (shape, inputs) in chains(n) {
            race(paged(
                vec![
                    ("proved", hull(undrwyth::hull, &inputs)),
                    ("columns", hull(twin::hull, &inputs)),
                    ("sort", hull(plain::hull, &inputs)),
                ],
                |page| loaded::hull(page, &inputs),
            ))
            .print(&format!("hull/{shape}/{n}"), ns);
        }
    }
}

fn outlines() {
    for n in SIZES {
        for (shape, inputs) in chains(n) {
            race(paged(
                vec![
                    ("proved", outline(undrwyth::outline, &inputs)),
                    ("twin", outline(twin::outline, &inputs)),
                    ("set", outline(plain::outline, &inputs)),
                ],
                |page| loaded::outline(page, &inputs),
            ))
            .print(&format!("outline/{shape}/{n}"), ns);
        }
    }
}

/// The walks of n steps that are rooms.
fn rooms(n: usize) -> impl Iterator<Item = (&'static str, Vec<Vec<u8>>)> {
    let closed = |shape: &str| shape.starts_with("closed") || ["room", "grown"].contains(&shape);
    chains(n)
        .into_iter()
        .filter(move |(shape, _)| closed(shape))
}

fn polygons() {
    for n in SIZES {
        for (shape, inputs) in rooms(n) {
            race(paged(
                vec![
                    ("proved", polygon(undrwyth::polygon_of_room, &inputs)),
                    ("twin", polygon(twin::polygon_of_room, &inputs)),
                    ("set", polygon(plain::polygon_of_room, &inputs)),
                ],
                |page| loaded::polygon(page, &inputs),
            ))
            .print(&format!("polygon/{shape}/{n}"), ns);
        }
    }
}

fn rows_of_rooms() {
    for n in SIZES {
        for (shape, inputs) in rooms(n) {
            race(paged(
                vec![
                    ("proved", rows(undrwyth::rows, &inputs)),
                    ("twin", rows(twin::rows, &inputs)),
                    ("sort", sorted_rows(&inputs)),
                ],
                |page| loaded::rows(page, &inputs),
            ))
            .print(&format!("rows/{shape}/{n}"), ns);
        }
    }
}

/// Each room over itself, so that one call goes over twice as many steps as are counted.
fn overlays() {
    for n in SIZES {
        for (shape, inputs) in rooms(n) {
            race(paged(
                vec![
                    ("proved", overlay(undrwyth::overlay, &inputs)),
                    ("twin", overlay(twin::overlay, &inputs)),
                ],
                |page| loaded::overlay(page, &inputs),
            ))
            .print(&format!("overlay/{shape}/{n}"), ns);
        }
    }
}

/// Rooms that are convex, so that every part is gone through to its end, and rooms that are not.
fn convexes() {
    for n in SIZES {
        let ovals = several(n, |_| inputs::oval(n, n / 4));
        for (shape, inputs) in [("oval", ovals)].into_iter().chain(rooms(n)) {
            race(paged(
                vec![
                    ("proved", convex(undrwyth::convex, &inputs)),
                    ("twin", convex(twin::convex, &inputs)),
                    ("centres", convex(plain::convex, &inputs)),
                ],
                |page| loaded::convex(page, &inputs),
            ))
            .print(&format!("convex/{shape}/{n}"), ns);
        }
    }
}

/// Hulls in blocks of one panel, and of more.
fn orthogonals() {
    for n in SIZES {
        for (shape, inputs) in rooms(n) {
            for grid in [1, 8] {
                race(vec![
                    (
                        "proved",
                        orthogonal(undrwyth::orthogonal_hull, &inputs, grid),
                    ),
                    ("twin", orthogonal(twin::orthogonal_hull, &inputs, grid)),
                    ("fill", orthogonal(plain::orthogonal_hull, &inputs, grid)),
                    ("rows", rows(undrwyth::rows, &inputs)),
                ])
                .print(&format!("orthogonal-{grid}/{shape}/{n}"), ns);
            }
        }
    }
}

/// What larger blocks bring: the same rooms in blocks of ever more panels, beside blocks of one.
fn blocks() {
    for (shape, inputs) in rooms(16_384) {
        let sized = |grid| orthogonal(undrwyth::orthogonal_hull, &inputs, grid);
        race(vec![
            ("1", sized(1)),
            ("4", sized(4)),
            ("8", sized(8)),
            ("14", sized(14)),
            ("64", sized(64)),
            ("1024", sized(1_024)),
        ])
        .print(&format!("blocks/{shape}"), ns);
    }
}

/// The polygons of these rooms, in either byte order.
fn polygons_of(rooms: &[Vec<u8>], little: bool) -> Vec<Vec<u8>> {
    let points = |room| inputs::points((-7, 5), room, usize::MAX, &mut Random(1));
    rooms
        .iter()
        .map(|room| inputs::polygon(&points(room), little))
        .collect()
}

/// Seconds of a call on these files as megabytes a second.
fn megabytes(files: &[Vec<u8>]) -> impl Fn(f64) -> f64 {
    let bytes = files.iter().map(Vec::len).sum::<usize>();
    move |seconds| bytes as f64 / 1e6 / seconds
}

fn files() {
    for n in SIZES {
        for (shape, rooms) in rooms(n) {
            for (order, little) in [("little", true), ("big", false)] {
                let files = polygons_of(&rooms, little);
                race(paged(
                    vec![
                        ("proved", chain(undrwyth::chain_of_polygon, &files)),
                        ("twin", chain(twin::chain_of_polygon, &files)),
                        ("lists", chain(plain::chain_of_polygon, &files)),
                    ],
                    |page| loaded::chain(page, &files),
                ))
                .print(&format!("chain/{shape}-{order}/{n}"), megabytes(&files));
            }
        }
    }
}

fn turns() {
    for n in SIZES {
        let inputs = several(n, |random| inputs::wander(n, random));
        race(vec![
            ("proved", convert(undrwyth::turns_of_steps, &inputs)),
            ("twin", convert(twin::turns_of_steps, &inputs)),
        ])
        .print(&format!("turns-of-steps/{n}"), ns);
        race(vec![
            ("proved", convert(undrwyth::steps_of_turns, &inputs)),
            ("twin", convert(twin::steps_of_turns, &inputs)),
        ])
        .print(&format!("steps-of-turns/{n}"), ns);
    }
}

fn growth() {
    for ((shape, long), (_, short)) in chains(16_384).into_iter().zip(chains(8_192)) {
        race(vec![
            ("16384", walk(undrwyth::walk, &long)),
            ("8192", walk(undrwyth::walk, &short)),
        ])
        .print(&format!("growth-walk/{shape}"), ns);
        let (two_long, two_short) = (by_turns(&long), by_turns(&short));
        race(vec![
            ("16384", walk_two(undrwyth::walk_two, &two_long)),
            ("8192", walk_two(undrwyth::walk_two, &two_short)),
        ])
        .print(&format!("growth-pair/{shape}"), ns);
        race(vec![
            ("16384", hull(undrwyth::hull, &long)),
            ("8192", hull(undrwyth::hull, &short)),
        ])
        .print(&format!("growth-hull/{shape}"), ns);
        race(vec![
            ("16384", outline(undrwyth::outline, &long)),
            ("8192", outline(undrwyth::outline, &short)),
        ])
        .print(&format!("growth-outline/{shape}"), ns);
    }
    for ((shape, long), (_, short)) in rooms(16_384).zip(rooms(8_192)) {
        race(vec![
            ("16384", polygon(undrwyth::polygon_of_room, &long)),
            ("8192", polygon(undrwyth::polygon_of_room, &short)),
        ])
        .print(&format!("growth-polygon/{shape}"), ns);
        race(vec![
            ("16384", rows(undrwyth::rows, &long)),
            ("8192", rows(undrwyth::rows, &short)),
        ])
        .print(&format!("growth-rows/{shape}"), ns);
        race(vec![
            ("16384", overlay(undrwyth::overlay, &long)),
            ("8192", overlay(undrwyth::overlay, &short)),
        ])
        .print(&format!("growth-overlay/{shape}"), ns);
        race(vec![
            ("16384", orthogonal(undrwyth::orthogonal_hull, &long, 1)),
            ("8192", orthogonal(undrwyth::orthogonal_hull, &short, 1)),
        ])
        .print(&format!("growth-orthogonal/{shape}"), ns);
        let (long, short) = (polygons_of(&long, true), polygons_of(&short, true));
        race(vec![
            ("16384", chain(undrwyth::chain_of_polygon, &long)),
            ("8192", chain(undrwyth::chain_of_polygon, &short)),
        ])
        .print(&format!("growth-chain/{shape}"), ns);
    }
    let ovals = |n: usize| several(n, |_| inputs::oval(n, n / 4));
    let (long, short) = (ovals(16_384), ovals(8_192));
    race(vec![
        ("16384", convex(undrwyth::convex, &long)),
        ("8192", convex(undrwyth::convex, &short)),
    ])
    .print("growth-convex/oval", ns);
}
