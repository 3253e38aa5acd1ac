//! What the demo line and the plant's figures are made of: the host of a line, owners, and the archive played back.

pub mod alone;
pub mod archive;
pub mod belt;
pub mod counters;
pub mod line;
pub mod owner;
pub mod progress;
pub mod report;
pub mod settings;
pub mod shift;
pub mod staff;
pub mod stretch;
pub mod turns;
pub mod window;
