//! The rules of the walk, the hull, the turns and the line program, said again with sets, maps and sorting. It shares no
//! idea with the proved library but the rules, so that a slip in one shows in a comparison with the other.

mod convex;
mod grid;
mod hull;
mod journal;
mod line;
mod orthogonal;
mod outline;
mod overlay;
mod pair;
mod polygon;
mod record;
mod rows;
mod turns;
mod walk;

pub use convex::convex;
pub use hull::hull;
pub use line::{convert_line, converter, line, program, rows_program, sheet};
pub use orthogonal::orthogonal_hull;
pub use outline::outline;
pub use overlay::overlay;
pub use pair::walk_two;
pub use polygon::{chain_of_polygon, polygon_of_room};
pub use rows::rows;
pub use turns::{steps_of_turns, turns_of_steps};
pub use walk::walk;
