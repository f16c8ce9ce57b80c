//! Made by tests/calls_vectors.py. Widths of the operands, from the documents' lists of commands.

pub const WIDTHS: [&[usize]; 21] = [
    &[1, 2, 1],          // 01 take
    &[1, 2, 2],          // 02 split
    &[1, 2],             // 03 merge
    &[1, 2, 1],          // 04 give
    &[1, 2],             // 05 revoke
    &[1, 2],             // 06 sweep
    &[1],                // 07 collect
    &[1, 1, 1],          // 08 map
    &[1, 1],             // 09 unmap
    &[1, 1],             // 0A zero
    &[1, 1, 2, 1],       // 0B load
    &[1, 1, 2, 1],       // 0C store
    &[1, 1, 2, 2, 1, 1], // 0D narrow
    &[1, 1, 8],          // 0E number
    &[1, 1, 1],          // 0F grant
    &[1, 1],             // 10 receive
    &[1, 2, 1, 1],       // 11 take
    &[1, 1, 1, 2, 1],    // 12 create
    &[1, 1, 1],          // 13 claim
    &[1, 1, 1],          // 14 release
    &[1, 1],             // 15 destroy
];
