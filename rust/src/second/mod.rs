//! The second program: decoder, profiles, arithmetic, services, count, records and
//! their two stored forms, settings with their windows, machine, images, text.

pub mod arith;
pub mod count;
pub mod decode;
pub mod exits;
pub mod groups;
pub mod image;
pub mod machine;
pub mod memory;
pub mod page;
pub mod profile;
pub mod record;
pub mod refusal;
pub mod rules;
pub mod services;
pub mod setting;
pub mod short;
pub mod text;
pub mod window;
