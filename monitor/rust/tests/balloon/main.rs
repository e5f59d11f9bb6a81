//! A driver played by hand over two regions with a hole between them, one of them a file.

mod calls;
mod dirty;
mod failing;
mod guest;
mod hints;
mod holds;
mod memory;
mod queues;
mod scribbles;
mod states;
