// Reads DWARF `.debug_aranges` sections, and unsigned LEB128 numbers: the C interface of Mallethill (docs/C.md).
#ifndef MALLETHILL_H
#define MALLETHILL_H

#include <stdbool.h>
#include <stddef.h>
#include <stdint.h>

#ifdef __cplusplus
extern "C" {
#endif

// What each call returns. Where the number is 0 there is no fault, and the payload is 0 too.
struct mallethill_fault {
    uint64_t payload;
    uint8_t number;
};

enum {
    MALLETHILL_UNEXPECTED_EOF = 1,
    MALLETHILL_UNKNOWN_RESERVED_LENGTH = 2,
    MALLETHILL_UNKNOWN_VERSION = 3,
    MALLETHILL_UNSUPPORTED_ADDRESS_SIZE = 4,
    MALLETHILL_UNSUPPORTED_SEGMENT_SIZE = 5,
    MALLETHILL_BAD_UNSIGNED_LEB128 = 8
};

// What a lookup came to. Where no range holds the address, the fields but `passed` are 0.
struct mallethill_found {
    uint64_t debug_info_offset; // of the unit, in .debug_info
    uint64_t set;               // the offset of the set in which the range stands
    uint64_t begin;             // the range's first address
    uint64_t end;               // the address behind its last
    uint64_t passed;            // how many faulty tuples stand before the answer
    bool found;
};

// The first range of a section that holds an address. A header that cannot be read ends the search with its fault.
struct mallethill_fault mallethill_lookup(const uint8_t *section, size_t section_len, bool big_endian,
                                          uint64_t address, struct mallethill_found *answer);

// The header of a set.
struct mallethill_header {
    uint64_t offset;            // of the set, in the section
    uint64_t length;            // of the set, behind its initial length
    uint64_t debug_info_offset; // of the unit, in .debug_info
    uint64_t next;              // the offset behind the set
    uint16_t version;           // 2 or 3
    uint8_t address_size;       // 1, 2, 4 or 8
    uint8_t word_size;          // 4 in the 32-bit format, 8 in the 64-bit format
};

// The header of the set at an offset of a section.
struct mallethill_fault mallethill_header(const uint8_t *section, size_t section_len, bool big_endian,
                                          uint64_t offset, struct mallethill_header *answer);

// How many headers were read, and the offset behind the last of their sets.
struct mallethill_headers {
    uint64_t count;
    uint64_t next;
};

// The headers of the sets from an offset of a section on, until the section or the room ends. At a fault too it writes
// its answer: the headers before the set that cannot be read, which begins at `next`.
struct mallethill_fault mallethill_headers(const uint8_t *section, size_t section_len, bool big_endian,
                                           uint64_t offset, struct mallethill_header *headers, size_t headers_len,
                                           struct mallethill_headers *answer);

// The addresses from `begin` on, up to `end` and without it.
struct mallethill_range {
    uint64_t begin;
    uint64_t end;
};

// What a set has.
struct mallethill_ranges {
    uint64_t count;             // how many ranges, with room for them or without
    uint64_t passed;            // how many faulty tuples were passed
    uint64_t debug_info_offset; // of the unit, in .debug_info
    uint64_t next;              // the offset behind the set
};

// The ranges of the set at an offset of a section. The first `ranges_len` are written, and all are counted.
struct mallethill_fault mallethill_ranges(const uint8_t *section, size_t section_len, bool big_endian,
                                          uint64_t offset, struct mallethill_range *ranges, size_t ranges_len,
                                          struct mallethill_ranges *answer);

// How many numbers were read, and how many bytes they take.
struct mallethill_numbers {
    uint64_t count;
    uint64_t taken;
};

// The unsigned LEB128 numbers at the front of some bytes, until the bytes or the room end. At a fault too it writes its
// answer: the numbers before the one that cannot be read, which begins at `taken`.
struct mallethill_fault mallethill_uleb128(const uint8_t *bytes, size_t bytes_len, uint64_t *numbers,
                                           size_t numbers_len, struct mallethill_numbers *answer);

#ifdef __cplusplus
}
#endif

#endif
