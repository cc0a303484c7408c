//! A second implementation of document 01 and, of document 02, Ask 1 and Ask 3 to Ask 10, written
//! from these documents alone. It writes the outputs that the proved program is tested against.
//!
//! Comments cite document 01 as (section, sentence), counted within the section; the one
//! word before the items of Opening a line is not counted. (Refusals, 3) is refusal 3 of
//! the section Who brings a refusal about, (Marked cases, A) is case A. Document 02 is cited
//! by its asks, (document 02, Ask 1), or by a sentence of one, counted after its title:
//! (Ask 3, 2).

pub mod ask;
pub mod book;
pub mod border_joins;
pub mod border_owners;
pub mod border_reasons;
pub mod border_rests;
pub mod border_sheets;
pub mod border_trials;
pub mod border_turns;
pub mod drawn_images;
pub mod drawn_pairs;
pub mod drawn_reasons;
pub mod drawn_sheets;
pub mod drawn_shows;
pub mod drawn_trees;
pub mod drawn_trials;
pub mod head;
pub mod image;
pub mod image_cases;
pub mod image_script;
pub mod joining;
pub mod list_cases;
pub mod list_script;
pub mod lists;
pub mod long_list;
pub mod order_counts;
pub mod orders;
pub mod random;
pub mod reason;
pub mod record;
pub mod refusal;
pub mod script;
pub mod shapes;
pub mod sheet;
pub mod tree;
pub mod trial;
pub mod walker;
pub mod weave;
pub mod weave_cases;
pub mod weave_script;

#[cfg(test)]
mod cases;
#[cfg(test)]
mod joined_plans;
#[cfg(test)]
mod ledger;
#[cfg(test)]
mod naive;
#[cfg(test)]
mod naive_image;
#[cfg(test)]
mod naive_joining;
#[cfg(test)]
mod naive_weaving;
#[cfg(test)]
mod offers;
#[cfg(test)]
mod refused_with_5;
#[cfg(test)]
mod woven_plans;
