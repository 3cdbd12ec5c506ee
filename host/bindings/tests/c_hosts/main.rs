//! What hosts in C and C++ compile, link and call: the header, the archive, whatever mode the processor is in.

mod building;

mod floating_point;
mod header;
mod object_code;
mod readme;
mod stack;
