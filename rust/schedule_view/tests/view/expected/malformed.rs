//! What is likely wrong with a line, in words.

/// An input, the number of the malformed line in it, and its likely cause. A number of 0 stands for the input.
pub type Row = (&'static [u8], u64, &'static str);

pub const ROWS: &[Row] = &[
    // In place of a header.
    (b"", 0, "there is no input"),
    (b"\n", 1, "it is empty"),
    (b"E 1 1\n", 1, "it is an event, and the header comes first"),
    (b"\xef\xbb\xbfL 1 1 0\n", 1, "it begins with a byte order mark: save the file as UTF-8 without one"),
    (b"\xff\xfeL\0 \x001\0 \x001\0 \x000\0\n\0", 1, "its characters have two bytes each, or one of them is zero: save the file as UTF-8 without a byte order mark"),
    (b"\xfe\xff\0L\0 \x001\0 \x001\0 \x000\0\n", 1, "its characters have two bytes each, or one of them is zero: save the file as UTF-8 without a byte order mark"),
    (b"L\0 \x001\0 \x001\0 \x000\0\n\0", 1, "its characters have two bytes each, or one of them is zero: save the file as UTF-8 without a byte order mark"),
    (b"\0L\0 \x001\0 \x001\0 \x000\0\n", 1, "its characters have two bytes each, or one of them is zero: save the file as UTF-8 without a byte order mark"),
    (b"L 1 1 0\r\nE 1 1\r\n", 1, "there is a carriage return in it: lines end with a newline alone, not as on Windows"),
    (b"L 1 1 0", 1, "there is no newline at its end, as if the file had been cut off"),
    (b"L 1 1 2\n", 1, "the last number of a header is 0, for free words, or 1, for reserved ones, not `2`"),
    (b"L 1 1\n", 1, "`L` takes 3 numbers, and has 2"),
    (b"l 1 1 0\n", 1, "letters are capitals: `L`, not `l`"),
    (b"# two threads\n", 1, "the first field of a line is L, E, X, W, V, N, A, S or C, not `#`"),
    (b"L 1 1 0                                                         0\n", 1, "it has 65 bytes, and the longest line of the form has 19"),
    (b"L 1 1 0\rE 1 1\rS 1\rX 1 1\rS 1\rE 1 1\rS 1\rX 1 1\rS 1\rE 1 1\rS 1\rX 1 1\rS 1\r", 1, "there is a carriage return in it: lines end with a newline alone, not as on Windows"),
    // Characters and spaces.
    (b"L 1 1 0\nE 1 1\r\n", 2, "there is a carriage return in it: lines end with a newline alone, not as on Windows"),
    (b"L 1 1 0\nE\t1 1\n", 2, "there is a tab in it: single spaces stand between fields"),
    (b"L 1 1 0\nE 1  1\n", 2, "there are two spaces side by side"),
    (b"L 1 1 0\n E 1 1\n", 2, "it begins with a space"),
    (b"L 1 1 0\nE 1 1 \n", 2, "it ends with a space"),
    (b"L 1 1 0\nS 1\n\nS 1\n", 3, "it is empty"),
    (b"L 1 1 0\nS \xc3\xa9\n", 2, "the byte c3 (hexadecimal) is no character of the form"),
    (b"L 1 1 0\nS 1\x00\n", 2, "the byte 00 (hexadecimal) is no character of the form"),
    (b"L 1 1 0\nS 1\x7f\n", 2, "the byte 7f (hexadecimal) is no character of the form"),
    // Letters.
    (b"L 1 1 0\ne 1 1\n", 2, "letters are capitals: `E`, not `e`"),
    (b"L 1 1 0\nc\n", 2, "letters are capitals: `C`, not `c`"),
    (b"L 1 1 0\nQ 1 1\n", 2, "the first field of a line is L, E, X, W, V, N, A, S or C, not `Q`"),
    (b"L 1 1 0\nE1 1\n", 2, "the first field of a line is L, E, X, W, V, N, A, S or C, not `E1`"),
    // Numbers.
    (b"L 1 1 0\nE 01 1\n", 2, "`01` has a leading zero"),
    (b"L 1 1 0\nS 000000\n", 2, "`000000` has a leading zero"),
    (b"L 1 1 0\nS 65536\n", 2, "the number `65536` is too large: 65535 is the largest"),
    (b"L 1 1 0\nV 1 1 4294967297\n", 2, "the number `4294967297` is too large: 65535 is the largest"),
    (b"L 1 1 0\nS -1\n", 2, "`-1` is no number in plain digits"),
    (b"L 1 1 0\nS +1\n", 2, "`+1` is no number in plain digits"),
    (b"L 1 1 0\nS one\n", 2, "`one` is no number in plain digits"),
    // Fields.
    (b"L 1 1 0\nS\n", 2, "`S` takes 1 number, and has 0"),
    (b"L 1 1 0\nE 1\n", 2, "`E` takes 2 numbers, and has 1"),
    (b"L 1 1 0\nE 1 1 1\n", 2, "`E` takes 2 numbers, and has 3"),
    (b"L 1 1 0\nV 1 1\n", 2, "`V` takes 3 numbers, and has 2"),
    (b"L 1 1 0\nC 1\n", 2, "`C` takes no number, and has 1"),
    (b"L 1 1 0\nL 1 1 2\n", 2, "the last number of a header is 0, for free words, or 1, for reserved ones, not `2`"),
    // What is good elsewhere.
    (b"L 1 1 0\nE 1 1\nL 1 1 0\n", 3, "it is a second header, and a schedule has one; `--schedule 2` takes the second of several schedules"),
    (b"L 1 1 0\nE 1 1\nS 1", 3, "there is no newline at its end, as if the file had been cut off"),
    // The first cause counts.
    (b"L 1 1 0\n e  01\t1\r\n", 2, "there is a carriage return in it: lines end with a newline alone, not as on Windows"),
    (b"L 1 1 0\nE 1 1 ", 2, "it ends with a space"),
];
