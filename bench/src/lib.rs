//! Timings of the proved engine beside the reference, over walk files made for
//! the purpose: both list the same bytes in the same process, and write the same
//! walks out.

pub mod callgrind;
pub mod calls;
pub mod deliveries;
pub mod exchange;
pub mod principals;
pub mod rows;
pub mod sending;
pub mod sides;
pub mod table;
pub mod timing;
pub mod walks;
pub mod written;
