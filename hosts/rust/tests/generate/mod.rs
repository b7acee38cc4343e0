//! Random sessions, damage to lines and images, and what the writer is handed.

pub mod images;
pub mod lines;
pub mod numbers;
pub mod random;
pub mod records;
pub mod scripts;
pub mod sessions;
pub mod writings;
