//! check-short-lists finds what is wrong: programs that differ in one byte, one line or one input, and
//! vectors that do.

use crate::programs::Checker;

#[test]
fn what_is_wrong_is_found() {
    let program = env!("CARGO_BIN_EXE_check-short-lists");
    let checker = Checker::new(program, env!("CARGO_BIN_EXE_short-lists"), "short-lists");
    let cases = [
        // One byte of one text: in the first line, in the count, behind the end, and the last.
        ("PEER | sed 's/^recover 1$/recover 2/'", "n 1, length 1: difference at byte 8, in line 1"),
        (
            "PEER | sed 's/^lists 187969$/lists 187968/'",
            "n 3, length 7: difference at byte 13430773, in line 187970",
        ),
        ("PEER; echo", "n 1, length 0: difference at byte 9, in line 3"),
        ("PEER | head -c 13430774", "n 3, length 7: difference at byte 13430774, in line 187970"),
        // A line is missing, is there twice, or two lines change places.
        ("PEER | sed '3d'", "n 1, length 2: difference at byte "),
        ("PEER | sed '2p'", "n 1, length 0: difference at byte 9, in line 3"),
        ("PEER | sed '2{h;$!d};3{G}'", "n 1, length 2: difference at byte "),
        // The text is right and the end is not.
        ("PEER; exit 1", "n 1, length 0: the program: exit status: 1"),
        ("PEER; echo done >&2", "standard error: done\\n"),
        // Wrong inputs.
        ("head -c 2 | PEER", "input of 3 bytes [02 03 00]: difference at byte 0, in line 1"),
        ("PEER | sed 's/16/15/'", "input of 0 bytes []: difference at byte 11, in line 1"),
        ("PEER | sed '/stopped/p'", "input of 0 bytes []: difference at byte 13, in line 2"),
    ];
    for (commands, words) in cases {
        checker.finds_wrong(commands, words);
    }

    // Vectors that the peer does not meet, and programs and vectors that are not there.
    checker.finds_wrong_text(
        "2-1.txt",
        "recover 1\nrecover 3\nlists 2\n",
        "n 2, length 1: difference at byte 18, in line 2\n  vector",
    );
    checker.finds_wrong_sum(
        "2 3 32 977 75",
        "2 3 32 977 76",
        "n 2, length 3: sums.txt has 32 lists, 977 bytes, sha256 76",
    );
    checker.cannot_run("2 3 32", "2 4 32");
}
