//! The proved library, linked as C, against an independent checker and against figures worked out by hand.

mod by_hand;
mod documents;
mod every_call;
mod explained;
mod helpers;
mod kinds;
mod lists;
mod named;
mod refusals;
mod report;
mod samples;
mod separation;
mod table1;
mod text;
mod trips;
