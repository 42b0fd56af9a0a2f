//! In place of gimli's constants.rs: the codes of range list entries (DWARF 5, 7.25), which read/rnglists.rs names.
#![allow(non_upper_case_globals)]

/// The code of a range list entry.
#[derive(Clone, Copy, Debug, PartialEq, Eq)]
pub struct DwRle(pub u8);

pub const DW_RLE_end_of_list: DwRle = DwRle(0);
pub const DW_RLE_base_addressx: DwRle = DwRle(1);
pub const DW_RLE_startx_endx: DwRle = DwRle(2);
pub const DW_RLE_startx_length: DwRle = DwRle(3);
pub const DW_RLE_offset_pair: DwRle = DwRle(4);
pub const DW_RLE_base_address: DwRle = DwRle(5);
pub const DW_RLE_start_end: DwRle = DwRle(6);
pub const DW_RLE_start_length: DwRle = DwRle(7);
