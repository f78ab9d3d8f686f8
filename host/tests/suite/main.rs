//! All tests from outside, as one program, since each one takes long to link.

mod directions;
mod group_packets;
mod group_programs;
mod group_properties;
mod groups;
mod places;
mod programs;
mod properties;
mod refusals;
mod sheet_refusals;
mod sheets;
mod worked;
mod writer;
