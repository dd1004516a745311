//! The command `ed2k`: what it prints, its exit status, and what it leaves in the folder.

#[path = "../support/json.rs"]
mod json;
#[path = "../support/packets.rs"]
mod packets;

mod explaining;
mod installing;
mod manual;
mod marking;
mod merging;
mod models;
mod readme;
mod saving;
mod scripting;
mod searching;
mod showing;
mod storms;
mod studio;
mod usage;
