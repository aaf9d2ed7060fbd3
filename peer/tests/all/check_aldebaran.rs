//! check-aldebaran finds what is wrong: programs that differ in one byte, one line or one input, and vectors that do.

use crate::programs::Checker;

#[test]
fn what_is_wrong_is_found() {
    let program = env!("CARGO_BIN_EXE_check-aldebaran");
    let checker = Checker::new(program, env!("CARGO_BIN_EXE_aldebaran"), "aldebaran");
    let cases = [
        // One byte of one text: in the first line, in a label, behind the end, and the last.
        (
            "PEER | sed 's/^des (0, 600/des (0, 601/'",
            "n 3, length 4: difference at byte 10, in line 1",
        ),
        (
            "PEER | sed 's/^(0, \"RECOVER 3/(0, \"RECOVER 2/'",
            "n 3, length 1: difference at byte 67, in line 4",
        ),
        ("PEER; echo", "n 1, length 0: difference at byte 14, in line 2"),
        ("PEER | head -c 13100", "n 3, length 4: difference at byte 13100, in line 601"),
        // What the text says by itself.
        (
            "PEER | sed 's/CRASH 1/CRASH 2/'",
            "read by itself, line 3: its list is refused 7: RECOVER 1, CRASH 2",
        ),
        ("PEER | sed '/TIMEOUT/d'", "read by itself, line 1: 4 transitions, but there are 3 lines"),
        // The text is right and the end is not.
        ("PEER; exit 1", "n 1, length 0: the program: exit status: 1"),
        ("PEER; echo done >&2", "standard error: done\\n"),
        // Wrong inputs.
        ("head -c 2 | PEER", "input of 3 bytes [02 03 00]: difference at byte 0, in line 1"),
        ("PEER | sed 's/ 22$/ 16/'", "input of 0 bytes []: difference at byte 10, in line 1"),
        ("PEER | sed '/stopped/p'", "input of 0 bytes []: difference at byte 13, in line 2"),
    ];
    for (commands, words) in cases {
        checker.finds_wrong(commands, words);
    }

    // Vectors that the peer does not meet, and programs and vectors that are not there.
    checker.finds_wrong_text(
        "1-1.aut",
        "des (0, 1, 2)\n(0, \"RECOVER 2\", 1)\n",
        "n 1, length 1: difference at byte 27, in line 2\n  vector",
    );
    checker.finds_wrong_sum(
        "2 3 43 853 a9",
        "2 3 43 853 aa",
        "n 2, length 3: sums.txt has 43 states, 853 bytes, sha256 aa",
    );
    checker.finds_wrong_sum("2 3 43", "2 3 42", "the peer has 43 states");
    checker.cannot_run("2 3 43", "2 4 43");
}
