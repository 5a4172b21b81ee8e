//! Names of rows of which scenes are recorded, whatever else is.

/// Rows with successors of several entries, which short scenes seldom have, and operations.
pub const SEVERAL_ENTRIES: [(&str, u8); 12] = [
    (
        "successor has capabilities 0x0008 in its first entry of 2",
        2,
    ),
    (
        "successor has capabilities 0x000f in its last entry of 2",
        2,
    ),
    (
        "successor has capabilities 0x0008 in its last entry of 2",
        3,
    ),
    (
        "successor has capabilities 0x0008 in its second entry of 3",
        3,
    ),
    (
        "successor has capabilities 0x000f in its first entry of 16",
        2,
    ),
    (
        "successor has capabilities 0x0008 in its ninth entry of 16",
        3,
    ),
    (
        "successor has capabilities 0x0008 in its last entry of 16",
        2,
    ),
    ("successor has capabilities 0x0007 in 16", 3),
    (
        "state has flag 2 and capabilities 0x0008, its successor too",
        2,
    ),
    (
        "state has flag 2 and capabilities 0x0008, its successor too",
        3,
    ),
    (
        "state has flag 2 and capabilities 0x0008, its successor cleaned",
        2,
    ),
    (
        "state has flag 2 and capabilities 0x0008, its successor cleaned",
        3,
    ),
];
/// Rows of recoveries that have waited, which are accepted as many others are.
pub const WAITED: [&str; 10] = [
    "absolute blocks, 1000 for 999",
    "relative blocks, 72057594037927935 for 72057594037927935",
    "absolute seconds, 1000 for 1000",
    "relative seconds, 4294967296 for 4294967295",
    "relative epochs, 0 2/4 for 0 1/2",
    "absolute epochs, 0 0/0 for 0 0/1",
    "relative epochs, 6 1/10 for 5 9/10",
    "absolute epochs, 256 0/4096 for 255 4095/4096",
    "relative epochs, 16777215 0/0 for 16777214 65534/65535",
    "every bit, no wait",
];
/// Document 01's marked rows that a program runs, and the limit of document 02 among those of an aux.
pub const MARKED: [&str; 8] = [
    "a slot twice",
    "aux 2,593",
    "aux 2,594",
    "aux 4,096",
    "aux 4,097",
    "proof 65,536",
    "proof 65,537",
    "aux 5,000, proof 65,536",
];
/// Rows of totals, most of which are accepted as many others are, and operations.
pub const CAPACITIES: [(&str, u8); 18] = [
    ("no capacity, 2 lines or more", 3),
    ("equal totals, 2 lines or more", 2),
    ("fee 1, 2 lines or more", 3),
    ("inputs 2^33, outputs 2^32+1, 2 lines or more", 1),
    ("inputs 2^64-1, 0 lines or more", 1),
    ("both totals 2^64-1, 2 lines or more", 1),
    ("both totals 2^64-1, 2 lines or more", 2),
    ("both totals 2^64-1, 64 lines or more", 3),
    ("inputs 2^64, 64 lines or more", 1),
    ("outputs 2^64, 64 lines or more", 2),
    ("foreign inputs have all", 1),
    ("foreign inputs have 2^64-1", 2),
    ("foreign inputs have 1 of 2^64", 3),
    ("foreign inputs have 2^64", 1),
    ("foreign inputs one too few", 2),
    ("no output, inputs 0", 1),
    ("no output, inputs 18446744073709551615", 1),
    ("no output, inputs 18446744073709551616", 1),
];
