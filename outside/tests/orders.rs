//! The order line: the proved call, the plain one and the program itself against a plain parser.

mod common;

use std::collections::BTreeMap;

use common::orders::{agree, decide, ordered, printed, sample, NEW, ORDER};
use common::random::Random;
use gwerniloc::LONGEST_OUTPUT;

#[test]
fn the_sample() {
    let lines = sample("t2_order");
    assert_eq!(lines.len(), 118);
    for (input, output) in lines {
        agree(ORDER, &input, &output, LONGEST_OUTPUT - output.len());
        assert_eq!(ordered(&decide(&input, NEW)), output);
        assert_eq!(printed("order", &input), output);
    }
}

#[test]
fn a_hundred_thousand_lines() {
    let mut random = Random(20_261_115);
    let mut tally: BTreeMap<(u8, usize), u32> = BTreeMap::new();
    for turn in 0..100_000 {
        let mut input = if turn % 10 == 9 { random.noise() } else { random.line() };
        for _ in 0..random.below(3) {
            random.mutate(&mut input);
        }
        let decision = decide(&input, NEW);
        let output = ordered(&decision);
        let spare = if turn % 100 == 0 { LONGEST_OUTPUT - output.len() } else { random.below(100) as usize };
        agree(ORDER, &input, &output, spare);
        *tally.entry(decision.err().unwrap_or((0, 0))).or_default() += 1;
        // The first 71 bytes decide, and whatever follows them doesn't matter.
        if input.len() > 71 {
            for other in random.beyond_71(&input) {
                assert_eq!(decide(&other, NEW), decision);
                agree(ORDER, &other, &output, 0);
            }
        }
    }
    let faults = [(1, 5), (15, 7), (17, 4), (17, 6)].into_iter().chain((1..=8).map(|field| (23, field)));
    for fault in faults.chain([(0, 0)]) {
        assert!(tally.get(&fault).is_some_and(|&n| n > 500), "{fault:?} in {tally:?}");
    }
    assert_eq!(tally.len(), 13, "{tally:?}");
}

#[test]
fn the_program_itself() {
    let example = b"1042;7;3;1;4;3;1\n";
    let text = b"order 1042 site 7 model 3 roots 1 level 1 leaves 8 shares 3\n0 0 2\n1 2 3\n2 5 3\n";
    assert_eq!(printed("order", example), text);
    assert_eq!(printed("order", b"1042;7;3;1;4;3;\n"), b"refused 23 field 7\n");
    let most = b"999999999;999999999;999999999;4096;21;4096;2\n";
    let longest = b"999999999;999999999;999999999;4;21;4096;6\n";
    for input in [&b""[..], b"\n", most, longest, b"1;2;3;4;5;6;0", &[b'1'; 100_000]] {
        assert_eq!(printed("order", input), ordered(&decide(input, NEW)));
    }
    let mut random = Random(71);
    for _ in 0..1_000 {
        let mut input = random.line();
        random.mutate(&mut input);
        let expected = ordered(&decide(&input, NEW));
        assert_eq!(printed("order", &input), expected, "{:?}", String::from_utf8_lossy(&input));
    }
}
