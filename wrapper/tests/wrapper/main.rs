//! The wrapper on good and bad input, with every byte of every buffer compared; calls built from texts; on the vectors; and beside the header.

mod buffers;
mod builder;
mod calls;
mod header;
mod shouts;
mod updates;
mod vectors;
