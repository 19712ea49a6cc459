mod physics;
pub use physics::*;
