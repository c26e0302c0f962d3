//! The proved library's own design in plain Rust: the linked quadtree in a lent table, the hull by columns, the programs on
//! lines over them. It is what the benchmarks measure the proved library against.

mod convex;
mod hull;
mod line;
mod orthogonal;
mod outline;
mod overlay;
mod pair;
mod pair_tree;
mod polygon;
mod rows;
mod tree;
mod turns;
mod walk;
mod walk_box;

pub use convex::convex;
pub use hull::hull;
pub use line::{convert_line, converter, line, program, rows_program, sheet};
pub use orthogonal::orthogonal_hull;
pub use outline::outline;
pub use overlay::overlay;
pub use pair::walk_two;
pub use polygon::{chain_of_polygon, judge_room, polygon_of_room};
pub use rows::rows;
pub use turns::{steps_of_turns, turns_of_steps};
pub use walk::walk;
