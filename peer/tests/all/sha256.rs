//! The test values that NIST gives for SHA-256, and every length up to a few blocks.

use peer::sha256::sha256;

#[test]
fn standard_values() {
    let million = vec![b'a'; 1_000_000];
    let values: [(&[u8], &str); 5] = [
        (b"", "e3b0c44298fc1c149afbf4c8996fb92427ae41e4649b934ca495991b7852b855"),
        (b"abc", "ba7816bf8f01cfea414140de5dae2223b00361a396177a9cb410ff61f20015ad"),
        (
            b"abcdbcdecdefdefgefghfghighijhijkijkljklmklmnlmnomnopnopq",
            "248d6a61d20638b8e5c026930c3e6039a33ce45964ff2167f6ecedd419db06c1",
        ),
        (
            b"abcdefghbcdefghicdefghijdefghijkefghijklfghijklmghijklmnhijklmnoijklmnopjklmnopqklmnopqrlmnopqrsmnopqrstnopqrstu",
            "cf5b16a778af8380036ce59e7b0492370b249b11e8f07a51afac45037afee9d1",
        ),
        (&million, "cdc76e5c9914fb9281a1c7e284d73e67f1809a48a497200e046d39ccc7112cd0"),
    ];
    for (bytes, digest) in values {
        assert_eq!(sha256(bytes), digest);
    }
}

/// The digests of 0 to 199 bytes, each byte the length, against the digest of them all in a row that
/// another implementation gives (Python's hashlib).
#[test]
fn every_length() {
    let digests: String = (0..200).map(|n| sha256(&vec![n; usize::from(n)])).collect();
    let all = "c86ce814ed1233ab1d4b273da1b6b13765cd39e72e81ce941452479e70ff1b10";
    assert_eq!(sha256(digests.as_bytes()), all);
}
