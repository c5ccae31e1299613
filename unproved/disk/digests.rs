//! Checks of digests against published ones and against `sha2`.

use crate::logs::bytes_of;
use anyhow::{Result, ensure};
use cases::{Random, Trials, run_each};
use qq_digests::{digests, put_digests};
use sha2::{Digest, Sha256};
use std::alloc::Global;

/// The examples of NIST for FIPS 180-4, and of the empty message: some text, how often it is repeated, the digest.
const PUBLISHED: [(&str, usize, &str); 5] = [
    (
        "",
        1,
        "e3b0c44298fc1c149afbf4c8996fb92427ae41e4649b934ca495991b7852b855",
    ),
    (
        "abc",
        1,
        "ba7816bf8f01cfea414140de5dae2223b00361a396177a9cb410ff61f20015ad",
    ),
    (
        "abcdbcdecdefdefgefghfghighijhijkijkljklmklmnlmnomnopnopq",
        1,
        "248d6a61d20638b8e5c026930c3e6039a33ce45964ff2167f6ecedd419db06c1",
    ),
    (
        "abcdefghbcdefghicdefghijdefghijkefghijklfghijklmghijklmnhijklmnoijklmnopjklmnopqklmnopqrlmnopqrsmnopqrst\
        nopqrstu",
        1,
        "cf5b16a778af8380036ce59e7b0492370b249b11e8f07a51afac45037afee9d1",
    ),
    (
        "a",
        1_000_000,
        "cdc76e5c9914fb9281a1c7e284d73e67f1809a48a497200e046d39ccc7112cd0",
    ),
];

/// How many random messages are hashed in one call.
const AT_ONCE: usize = 100;

fn repeated(alloc: Global, text: &str, count: usize) -> Result<Vec<u8>> {
    let mut bytes = Vec::new(alloc);
    for _ in 0..count {
        bytes.extend_from_slice(text.as_bytes())?;
    }
    Ok(bytes)
}

/// Each published message eleven times in a call, eight of them side by side, and each with a prefix split off.
fn published_messages_have_their_digests(rt: HostRuntime) -> Result<()> {
    let alloc = rt.alloc();
    for (text, count, wanted) in PUBLISHED {
        let message = repeated(alloc, text, count)?;
        let wanted = bytes_of(alloc, wanted)?;
        for split in [0, message.len() / 2, message.len()] {
            let (prefix, rest) = message.as_slice().split_at(split);
            let found = digests(alloc, prefix, &[rest; 11])?;
            ensure!(found.len() == 11);
            ensure!(found.iter().all(|it| it.as_slice() == wanted.as_slice()));
        }
    }
    Ok(())
}

/// Messages side by side, each of another digest, keep their order.
fn published_messages_keep_their_order(rt: HostRuntime) -> Result<()> {
    let alloc = rt.alloc();
    let mut messages: Vec<&[u8]> = Vec::new(alloc);
    for (text, _, _) in &PUBLISHED[..4] {
        messages.push(text.as_bytes())?;
    }
    let found = digests(alloc, &[], &messages)?;
    for (found, (_, _, wanted)) in found.iter().zip(&PUBLISHED) {
        ensure!(found.as_slice() == bytes_of(alloc, wanted)?.as_slice());
    }
    Ok(())
}

/// A length of 0 to 70,000 bytes, short ones more often; half of them about as long as the one before.
fn next_length(random: &mut Random, before: usize) -> usize {
    if random.below(2) == 0 {
        return (before + random.below(30) as usize).min(70_000);
    }
    let end = [16, 64, 256, 1_024, 8_192, 70_001][random.below(6) as usize];
    random.below(end) as usize
}

fn check_messages(alloc: Global, random: &mut Random, bytes: &[u8], count: usize) -> Result<()> {
    let mut messages = Vec::new(alloc);
    let mut length = 0;
    for _ in 0..count {
        length = next_length(random, length);
        let start = random.below((bytes.len() - length) as u64 + 1) as usize;
        messages.push(&bytes[start..start + length])?;
    }
    let prefix = &bytes[..random.below(80) as usize];
    let found = digests(alloc, prefix, &messages)?;
    ensure!(found.len() == count);
    for (found, message) in found.iter().zip(&messages) {
        let mut hasher = Sha256::new();
        hasher.update(prefix);
        hasher.update(*message);
        ensure!(*found == hasher.finalize(), "{} bytes", message.len());
    }
    Ok(())
}

/// Pieces of one run of bytes, whose digests are added to those of pieces before.
fn check_pieces(
    alloc: Global,
    random: &mut Random,
    bytes: &[u8],
    found: &mut Vec<[u8; 32]>,
    room: &mut Vec<u8>,
) -> Result<()> {
    let mut pieces = Vec::new(alloc);
    let mut lengths = Vec::new(alloc);
    let mut rest = bytes;
    for _ in 0..random.below(AT_ONCE as u64) {
        let length = (random.below(300) as usize).min(rest.len());
        let (piece, more) = rest.split_at(length);
        pieces.push(piece)?;
        lengths.push(length)?;
        rest = more;
    }
    let prefix = &bytes[..random.below(80) as usize];
    let before = found.len();
    put_digests(found, room, prefix, bytes, &lengths)?;
    let (_, added) = found.as_slice().split_at(before);
    ensure!(added == digests(alloc, prefix, &pieces)?.as_slice());
    Ok(())
}

/// 10,000 random messages, and each count of messages below twenty.
fn random_messages_have_the_digests_of_sha2(rt: HostRuntime) -> Result<()> {
    let alloc = rt.alloc();
    let mut random = Random::new(1);
    let mut bytes = Vec::new(alloc);
    for _ in 0..80_000 {
        bytes.push(random.below(256) as u8)?;
    }
    for count in 0..20 {
        check_messages(alloc, &mut random, &bytes, count)?;
    }
    let mut found = Vec::new(alloc);
    let mut room = Vec::new(alloc);
    for _ in 0..100 {
        check_messages(alloc, &mut random, &bytes, AT_ONCE)?;
        check_pieces(alloc, &mut random, &bytes, &mut found, &mut room)?;
    }
    Ok(())
}

pub fn check(trials: &mut Trials) -> Result<()> {
    run_each!(
        trials;
        published_messages_have_their_digests,
        published_messages_keep_their_order,
        random_messages_have_the_digests_of_sha2,
    );
    Ok(())
}
