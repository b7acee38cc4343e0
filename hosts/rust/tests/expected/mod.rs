//! What the hosts show for a person, worked out from the model's board: the
//! text of --show and --dot, and of refusals. Shares no code with the hosts.

pub mod phrases;
pub mod refusals;
pub mod show;
