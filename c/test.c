// Calls the five functions of the static library on small inputs, and names each check that fails.
#include "mallethill.h"

#include <stdio.h>
#include <string.h>

static int failures;

#define CHECK(fact) \
    do { \
        if (!(fact)) { \
            fprintf(stderr, "%s:%d: failed: %s\n", __FILE__, __LINE__, #fact); \
            failures++; \
        } \
    } while (0)

// Two sets. The first is little-endian, version 2, of 4-byte addresses and the unit at 0x10: the range from 0x1000 up to
// 0x1020, a null pair, a tuple that ends past the largest address, and the range from 0x2000 up to 0x2001. The second
// has the unit at 0x20 and the range from 0x3000 up to 0x3008.
static const uint8_t section[] = {
    0x2c, 0, 0, 0, 2, 0, 0x10, 0, 0, 0, 4, 0, 0, 0, 0, 0,
    0x00, 0x10, 0, 0, 0x20, 0, 0, 0,
    0, 0, 0, 0, 0, 0, 0, 0,
    0x00, 0xf0, 0xff, 0xff, 0x00, 0x20, 0, 0,
    0x00, 0x20, 0, 0, 0x01, 0, 0, 0,
    0x14, 0, 0, 0, 2, 0, 0x20, 0, 0, 0, 4, 0, 0, 0, 0, 0,
    0x00, 0x30, 0, 0, 0x08, 0, 0, 0,
};

// One big-endian set in the 64-bit format, version 3, of 8-byte addresses: the range from 0x100 up to 0x180.
static const uint8_t big[] = {
    0xff, 0xff, 0xff, 0xff, 0, 0, 0, 0, 0, 0, 0, 36, 0, 3, 0, 0, 0, 0, 0, 0, 0, 0x30, 8, 0, 0, 0, 0, 0, 0, 0, 0, 0,
    0, 0, 0, 0, 0, 0, 1, 0, 0, 0, 0, 0, 0, 0, 0, 0x80,
};

static bool no_fault(struct mallethill_fault fault) { return fault.number == 0 && fault.payload == 0; }

static bool is_fault(struct mallethill_fault fault, uint8_t number, uint64_t payload) {
    return fault.number == number && fault.payload == payload;
}

static void lookups(void) {
    struct mallethill_found found = {0};
    CHECK(no_fault(mallethill_lookup(section, sizeof section, false, 0x101f, &found)));
    CHECK(found.found && found.debug_info_offset == 0x10 && found.set == 0);
    CHECK(found.begin == 0x1000 && found.end == 0x1020 && found.passed == 0);
    // past the faulty tuple, into the second set
    CHECK(no_fault(mallethill_lookup(section, sizeof section, false, 0x3000, &found)));
    CHECK(found.found && found.debug_info_offset == 0x20 && found.set == 48);
    CHECK(found.begin == 0x3000 && found.end == 0x3008 && found.passed == 1);
    // an end is not in its range
    CHECK(no_fault(mallethill_lookup(section, sizeof section, false, 0x1020, &found)));
    CHECK(!found.found && found.debug_info_offset == 0 && found.set == 0);
    CHECK(found.begin == 0 && found.end == 0 && found.passed == 1);
    CHECK(no_fault(mallethill_lookup(big, sizeof big, true, 0x17f, &found)));
    CHECK(found.found && found.debug_info_offset == 0x30 && found.end == 0x180);
    // the second set has lost its last byte: the fault, and the answer as it was
    struct mallethill_found before = {1, 2, 3, 4, 5, true};
    found = before;
    CHECK(is_fault(mallethill_lookup(section, sizeof section - 1, false, 0x3000, &found), MALLETHILL_UNEXPECTED_EOF, 52));
    CHECK(found.debug_info_offset == 1 && found.set == 2 && found.begin == 3);
    CHECK(found.end == 4 && found.passed == 5 && found.found);
    // no bytes, no sets
    CHECK(no_fault(mallethill_lookup(section, 0, false, 0x1000, &found)) && !found.found);
}

static void headers(void) {
    struct mallethill_header header = {0};
    uint64_t units[2] = {0, 0};
    size_t sets = 0;
    for (uint64_t at = 0; at < sizeof section && sets < 2; at = header.next) {
        CHECK(no_fault(mallethill_header(section, sizeof section, false, at, &header)));
        CHECK(header.offset == at && header.version == 2);
        CHECK(header.address_size == 4 && header.word_size == 4);
        units[sets++] = header.debug_info_offset;
    }
    CHECK(sets == 2 && units[0] == 0x10 && units[1] == 0x20);
    CHECK(header.length == 0x14 && header.next == sizeof section);
    CHECK(no_fault(mallethill_header(big, sizeof big, true, 0, &header)));
    CHECK(header.offset == 0 && header.length == 36 && header.debug_info_offset == 0x30 && header.next == sizeof big);
    CHECK(header.version == 3 && header.address_size == 8 && header.word_size == 8);
    // no set there, and the answer as it was
    CHECK(is_fault(mallethill_header(section, sizeof section, false, sizeof section, &header), MALLETHILL_UNEXPECTED_EOF,
                   sizeof section));
    CHECK(is_fault(mallethill_header(section, sizeof section, false, UINT64_MAX, &header), MALLETHILL_UNEXPECTED_EOF, 0));
    CHECK(header.length == 36 && header.version == 3);
    // in the other order the first four bytes are more than the section has
    CHECK(is_fault(mallethill_header(section, sizeof section, true, 0, &header), MALLETHILL_UNEXPECTED_EOF, 4));
    uint8_t spoilt[sizeof section];
    memcpy(spoilt, section, sizeof section);
    spoilt[4] = 9;
    CHECK(is_fault(mallethill_header(spoilt, sizeof spoilt, false, 0, &header), MALLETHILL_UNKNOWN_VERSION, 9));
    memcpy(spoilt, "\xf1\xff\xff\xff", 4);
    CHECK(is_fault(mallethill_header(spoilt, sizeof spoilt, false, 0, &header), MALLETHILL_UNKNOWN_RESERVED_LENGTH,
                   0xfffffff1));
}

static void rows_of_headers(void) {
    struct mallethill_header room[3] = {{0}};
    struct mallethill_headers read = {9, 9};
    // until the section ends
    CHECK(no_fault(mallethill_headers(section, sizeof section, false, 0, room, 3, &read)));
    CHECK(read.count == 2 && read.next == sizeof section);
    CHECK(room[0].debug_info_offset == 0x10 && room[0].next == 48 && room[1].offset == 48);
    CHECK(room[1].debug_info_offset == 0x20 && room[1].length == 0x14 && room[1].next == sizeof section);
    CHECK(room[2].version == 0);
    // until the room ends, and on from there
    CHECK(no_fault(mallethill_headers(section, sizeof section, false, 0, room, 1, &read)));
    CHECK(read.count == 1 && read.next == 48);
    CHECK(no_fault(mallethill_headers(section, sizeof section, false, read.next, room, 1, &read)));
    CHECK(read.count == 1 && read.next == sizeof section && room[0].debug_info_offset == 0x20);
    CHECK(no_fault(mallethill_headers(section, sizeof section, false, read.next, room, 1, &read)));
    CHECK(read.count == 0 && read.next == sizeof section);
    // until a set lacks its end, and at an offset past the section
    CHECK(is_fault(mallethill_headers(section, sizeof section - 1, false, 0, room, 3, &read), MALLETHILL_UNEXPECTED_EOF,
                   52));
    CHECK(read.count == 1 && read.next == 48 && room[0].debug_info_offset == 0x10);
    CHECK(is_fault(mallethill_headers(section, sizeof section, false, sizeof section + 1, room, 3, &read),
                   MALLETHILL_UNEXPECTED_EOF, 0));
    CHECK(read.count == 0 && read.next == sizeof section + 1);
}

static void ranges(void) {
    struct mallethill_range room[3] = {{1, 1}, {1, 1}, {1, 1}};
    struct mallethill_ranges read = {9, 9, 9, 9};
    // more room than ranges: what is behind them stays
    CHECK(no_fault(mallethill_ranges(section, sizeof section, false, 0, room, 3, &read)));
    CHECK(read.count == 2 && read.passed == 1 && read.debug_info_offset == 0x10 && read.next == 48);
    CHECK(room[0].begin == 0x1000 && room[0].end == 0x1020);
    CHECK(room[1].begin == 0x2000 && room[1].end == 0x2001);
    CHECK(room[2].begin == 1 && room[2].end == 1);
    // less: the ranges that have no room are counted
    struct mallethill_range one[2] = {{1, 1}, {1, 1}};
    CHECK(no_fault(mallethill_ranges(section, sizeof section, false, 0, one, 1, &read)));
    CHECK(read.count == 2 && read.passed == 1);
    CHECK(one[0].begin == 0x1000 && one[1].begin == 1);
    CHECK(no_fault(mallethill_ranges(section, sizeof section, false, 48, one, 0, &read)));
    CHECK(read.count == 1 && read.passed == 0 && one[0].begin == 0x1000);
    CHECK(read.debug_info_offset == 0x20 && read.next == sizeof section);
    // a fault: both places as they were
    CHECK(is_fault(mallethill_ranges(section, 47, false, 0, room, 3, &read), MALLETHILL_UNEXPECTED_EOF, 4));
    CHECK(read.count == 1 && read.passed == 0 && room[0].begin == 0x1000);
}

static void numbers(void) {
    const uint8_t bytes[] = {0x02, 0xe5, 0x8e, 0x26, 0x7f, 0x80};
    uint64_t room[4] = {7, 7, 7, 7};
    struct mallethill_numbers read = {9, 9};
    // until the room ends
    CHECK(no_fault(mallethill_uleb128(bytes, sizeof bytes, room, 2, &read)));
    CHECK(read.count == 2 && read.taken == 4);
    CHECK(room[0] == 2 && room[1] == 624485 && room[2] == 7);
    // until the bytes end
    CHECK(no_fault(mallethill_uleb128(bytes, 5, room, 4, &read)));
    CHECK(read.count == 3 && read.taken == 5 && room[2] == 127 && room[3] == 7);
    // until a number lacks its end, which begins at the place that is told
    room[0] = room[2] = 7;
    CHECK(is_fault(mallethill_uleb128(bytes, sizeof bytes, room, 4, &read), MALLETHILL_UNEXPECTED_EOF, 6));
    CHECK(read.count == 3 && read.taken == 5 && room[0] == 2 && room[2] == 127 && room[3] == 7);
    // until a number is too large
    const uint8_t large[] = {0x01, 0xff, 0xff, 0xff, 0xff, 0xff, 0xff, 0xff, 0xff, 0xff, 0x02};
    CHECK(is_fault(mallethill_uleb128(large, sizeof large, room, 4, &read), MALLETHILL_BAD_UNSIGNED_LEB128, 0));
    CHECK(read.count == 1 && read.taken == 1 && room[0] == 1 && room[1] == 624485);
    CHECK(no_fault(mallethill_uleb128(bytes, 0, room, 4, &read)) && read.count == 0 && read.taken == 0);
}

int main(void) {
    lookups();
    headers();
    rows_of_headers();
    ranges();
    numbers();
    if (failures == 0) {
        puts("the five functions answer as they should");
    }
    return failures != 0;
}
