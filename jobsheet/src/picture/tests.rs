//! Tests of the pictures: where things stand, how they look, what is said, and that no input is too strange.

mod given;
mod looks;
mod places;
mod whole;
