//! Document 01's trials, the readings of its open places and the claims it makes, tried on the reference.

#[path = "trials/ballot_controller.rs"]
mod ballot_controller;
#[path = "trials/ballot_records.rs"]
mod ballot_records;
#[path = "trials/ballots.rs"]
mod ballots;
#[path = "trials/claims.rs"]
mod claims;
#[path = "trials/controller.rs"]
mod controller;
#[path = "trials/generator.rs"]
mod generator;
#[path = "trials/kept.rs"]
mod kept;
#[path = "trials/listed.rs"]
mod listed;
#[path = "trials/picture.rs"]
mod picture;
#[path = "trials/questions.rs"]
mod questions;
#[path = "trials/open_gates.rs"]
mod open_gates;
#[path = "trials/readings.rs"]
mod readings;
#[path = "trials/records.rs"]
mod records;
#[path = "trials/search.rs"]
mod search;
#[path = "trials/steps_back.rs"]
mod steps_back;
#[path = "trials/strays.rs"]
mod strays;
#[path = "trials/support.rs"]
mod support;
#[path = "trials/survey.rs"]
mod survey;
#[path = "trials/trace.rs"]
mod trace;
#[path = "trials/levels.rs"]
mod levels;
#[path = "trials/dues.rs"]
mod dues;
#[path = "trials/line.rs"]
mod line;
