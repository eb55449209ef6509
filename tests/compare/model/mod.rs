//! An independent model of the paper, written the obvious slow way, sentence by sentence. Every call gives its answer
//! and leaves state, memory and outputs as the paper says, for every input. Nothing here is taken from the library.

pub mod chain;
pub mod closing;
pub mod eprom;
pub mod hunt;
pub mod kinds;
pub mod lister;
pub mod machine;
pub mod numbers;
pub mod output;
pub mod salvage;
pub mod saved;
pub mod sheet;
pub mod tidy;
pub mod well_formed;
pub mod writer;
