//! Books for the comparison: a card that plays along while a book is made,
//! damage, and the count of what was reached.

pub mod arms;
pub mod aside;
pub mod card;
pub mod closing;
pub mod coverage;
pub mod damage;
pub mod expected;
pub mod generate;
pub mod leaves;
pub mod player;
pub mod protection;
pub mod rng;
pub mod sample;
pub mod settings;
pub mod spoil;
pub mod walk;
