//! Worked sheets that stand on no page. Tests hold them to what they say, and the
//! comparison tries them on an engine.

/// One place. Line 2 is line 0 until line 1, from 1 to 3 samples ahead, where left
/// is 5 4 2 3 and right is -3 6 1 9. It has sample 0 alone: yes 4.
///
/// Carried after each sample are the least left so far and until for the window
/// read so far: (5, -inf), (4, 4), (2, 4), (2, 4).
pub const UNTIL: [u32; 17] = [
    0x10102004, 0x40000005, 0x47FFFFFD, 0x40000004, 0x40000006, 0x40000002, 0x40000001, 0x40000003,
    0x40000009, 0x50100000, 0x80000000, 0x50100400, 0x80000000, 0x50500001, 0x60000001, 0x70000003,
    0xF0000010,
];

/// The same with time turned round: line 2 is line 0 since line 1, from 1 to 3
/// samples back, where left is 3 2 4 5 and right is 9 1 6 -3. It has sample 3
/// alone: yes 4.
pub const SINCE: [u32; 17] = [
    0x10102004, 0x40000003, 0x40000009, 0x40000002, 0x40000001, 0x40000004, 0x40000006, 0x40000005,
    0x47FFFFFD, 0x50100000, 0x80000000, 0x50100400, 0x80000000, 0x50C00001, 0x60000001, 0x70000003,
    0xF0000010,
];

/// Two places joined by a road of weight 1, one signal, two samples. Line 0 is at
/// least 0, line 1 is always, line 2 everywhere, and line 3 line 0 surrounded by line
/// 0, each of line 0 from 0 to 1. The samples are 1 and -2, then 0 and 3: 8 yeses.
///
/// The only region of a place that has a boundary is the place alone, so that line 3
/// is the lesser of both places, as line 2 is.
pub const BEFORE_RAISING: [u32; 19] = [
    0x10201002, 0x20000001, 0x30000001, 0x40000001, 0x47FFFFFE, 0x40000000, 0x40000003, 0x50100000,
    0x80000000, 0x50A00000, 0x60000000, 0x70000001, 0x50B00000, 0x60000000, 0x70000001, 0x50700000,
    0x60000000, 0x70000001, 0xF0000012,
];

/// The same with two samples raised by 2: 1 and 0, then 2 and 3. No yes is lost, no
/// margin is lower, and all 14 verdicts are yes.
pub const AFTER_RAISING: [u32; 19] = [
    0x10201002, 0x20000001, 0x30000001, 0x40000001, 0x40000000, 0x40000002, 0x40000003, 0x50100000,
    0x80000000, 0x50A00000, 0x60000000, 0x70000001, 0x50B00000, 0x60000000, 0x70000001, 0x50700000,
    0x60000000, 0x70000001, 0xF0000012,
];

/// Example A of the scope as a wide sheet of two places: one word more, before the
/// head. Its answer has 21 words, one more than the narrow sheet's.
pub const WIDE_A: [u32; 20] = [
    0xA0000002, 0x10001002, 0x20000001, 0x30000003, 0x40000005, 0x47FFFFFE, 0x40000001, 0x40000004,
    0x50100000, 0x80000000, 0x50900000, 0x60000000, 0x70000001, 0x50600000, 0x60000001, 0x70000003,
    0x50700800, 0x60000000, 0x70000003, 0xF0000013,
];

/// Three corrections of example A: of sample 1 at place 0 revision 1, which says 8, and
/// revision 2, which says -8 and counts, and of sample 0 at place 1 revision 1, which
/// says 3.
pub const CORRECTIONS_OF_A: [u32; 9] = [
    0xB0100001, 0xC0000000, 0x40000008, 0xB0200001, 0xC0000000, 0x47FFFFF8, 0xB0100000, 0xC0000001,
    0x40000003,
];

/// Example A with these corrections: its words 4 and 5 are others.
pub const A_CORRECTED: [u32; 19] = [
    0x10201002, 0x20000001, 0x30000003, 0x40000005, 0x40000003, 0x47FFFFF8, 0x40000004, 0x50100000,
    0x80000000, 0x50900000, 0x60000000, 0x70000001, 0x50600000, 0x60000001, 0x70000003, 0x50700800,
    0x60000000, 0x70000003, 0xF0000012,
];

/// Two places and a road of weight 3 that runs from 0 to 1 alone. Line 0 is left, 5 and
/// 6, line 1 is right, 3 and 4. Line 2 is somewhere left from 1 to 9, line 3 left
/// surrounded by right from 0 to 9, and line 4 the same with islands.
///
/// From 1 nothing is reached, so that line 2 has nothing there, line 3 no boundary,
/// and line 4 the island of 1 alone. From 0 line 2 has 6. Its regions are 0 alone,
/// around which 1 is, with the lesser of 5 and 4, and the island of both, with 5.
pub const ONE_WAY: [u32; 21] = [
    0x10202001, 0x28000001, 0x30000003, 0x40000005, 0x40000003, 0x40000006, 0x40000004, 0x50100000,
    0x80000000, 0x50100400, 0x80000000, 0x50600000, 0x60000001, 0x70000009, 0x50700001, 0x60000000,
    0x70000009, 0x50F00001, 0x60000000, 0x70000009, 0xF0000014,
];

/// The same with the road turned round: it runs from 1 to 0 alone.
pub const ONE_WAY_BACK: [u32; 21] = [
    0x10202001, 0x24000001, 0x30000003, 0x40000005, 0x40000003, 0x40000006, 0x40000004, 0x50100000,
    0x80000000, 0x50100400, 0x80000000, 0x50600000, 0x60000001, 0x70000009, 0x50700001, 0x60000000,
    0x70000009, 0x50F00001, 0x60000000, 0x70000009, 0xF0000014,
];

/// All sheets of them.
pub const SHEETS: [&[u32]; 8] = [
    &UNTIL,
    &SINCE,
    &BEFORE_RAISING,
    &AFTER_RAISING,
    &WIDE_A,
    &A_CORRECTED,
    &ONE_WAY,
    &ONE_WAY_BACK,
];
