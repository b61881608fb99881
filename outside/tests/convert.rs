//! The converter of stored order lines: the proved call, the plain one and the program itself against the ticket, the old
//! rule and the new one.

mod common;

use std::collections::BTreeMap;

use common::orders::{agree, answer, converted, decide, ordered, printed, sample, Decision, CONVERT, NEW, OLD, ORDER};
use common::random::Random;
use gwerniloc::{convert, LONGEST_LINE};

/// Whether the line has a field seven and leaves it empty.
fn leaves_empty(input: &[u8]) -> bool {
    let line = input.split(|&b| b == b'\n').next().expect("at least one piece");
    line.split(|&b| b == b';').nth(6) == Some(b"")
}

/// The new rule is the old one, but that an empty field seven is refused in its place: after fields 1 to 6, before 8.
fn by_the_new_rule(input: &[u8], old: &Decision) -> Decision {
    let reached = !matches!(old, Err((_, field)) if *field < 7);
    if reached && leaves_empty(input) {
        Err((23, 7))
    } else {
        *old
    }
}

/// Asks all that the ticket says of an input, with so many bytes to spare. Gives what is printed and what the old rule
/// says.
fn ask(input: &[u8], spare: usize) -> (Vec<u8>, Decision) {
    let (old, new) = (decide(input, OLD), decide(input, NEW));
    let output = converted(input);
    agree(CONVERT, input, &output, spare);
    agree(ORDER, input, &ordered(&new), spare);
    assert_eq!(new, by_the_new_rule(input, &old));
    assert!(output.len() <= LONGEST_LINE);
    assert_eq!(output[0] == b'r', old.is_err());
    if new.is_ok() {
        assert_eq!(output, input);
    }
    match &old {
        Ok(_) => asked_again(input, &output, &old, spare),
        Err((number, field)) => assert_eq!(output, format!("refused {number} field {field}\n").as_bytes()),
    }
    (output, old)
}

/// The output for a line that the old rule accepts: the new program makes of it what the old one made of the line.
fn asked_again(input: &[u8], output: &[u8], old: &Decision, spare: usize) {
    agree(ORDER, output, &ordered(old), spare);
    assert_eq!(decide(output, NEW), *old);
    agree(CONVERT, output, output, spare);
    if leaves_empty(input) {
        let (before, lf) = input.split_at(input.len() - 1);
        assert_eq!(output, [before, b"2", lf].concat());
    } else {
        assert_eq!(output, input);
    }
}

#[test]
fn the_sample() {
    let lines = sample("t2_convert");
    assert_eq!(lines.len(), 185);
    for (input, output) in lines {
        assert_eq!(answer(convert, &input, LONGEST_LINE).as_ref(), Ok(&output));
        assert_eq!(printed("convert", &input), output);
        assert_eq!(ask(&input, 80).0, output);
    }
}

/// What the old program printed: on an order the new program prints it of the converted line, a refusal the converter prints itself.
#[test]
fn the_old_program() {
    let lines = sample("order");
    assert_eq!(lines.len(), 370);
    for (input, output) in lines {
        let line = answer(convert, &input, LONGEST_LINE).expect("enough room");
        let accepted = output.starts_with(b"order ");
        assert_eq!(if accepted { printed("order", &line) } else { line }, output);
        assert_eq!(ask(&input, 80).1.is_ok(), accepted);
    }
}

/// What may follow the sixth semicolon where field seven is empty: often the LF alone.
const ENDS: [&str; 12] = ["\n", "\n", "\n", "\n", "\n", "", ";", ";\n", ";2\n", "\n\n", "\n2", "\n1;2;3;4;5;6;\n"];

impl Random {
    /// A line of plausible fields of which the seventh is empty.
    fn stored(&mut self) -> Vec<u8> {
        format!("{}{}", self.six_fields(), self.pick(&ENDS)).into_bytes()
    }

    /// Bytes without sense, a line that leaves field seven empty or one that may have it filled, some of them damaged.
    fn input(&mut self) -> Vec<u8> {
        let mut input = match self.below(10) {
            0 => self.noise(),
            1..=5 => self.stored(),
            _ => self.line(),
        };
        for _ in 0..self.below(3) {
            self.mutate(&mut input);
        }
        input
    }
}

/// Every outcome of the old rule came often enough, with field seven empty and not; but an empty one is never refused 15.
fn covers(tally: &BTreeMap<(bool, (u8, usize)), u32>) {
    println!("(field seven empty, refusal): lines {tally:?}");
    let mut kinds = 0;
    for empty in [false, true] {
        let faults = [(0, 0), (1, 5), (17, 4), (17, 6)].into_iter().chain((1..=8).map(|field| (23, field)));
        for fault in faults.chain((!empty).then_some((15, 7))) {
            let lines = tally.get(&(empty, fault)).copied().unwrap_or(0);
            assert!(lines > 500, "{lines} lines of {empty} {fault:?}");
            kinds += 1;
        }
    }
    assert_eq!(tally.len(), kinds);
    let empty: u32 = tally.iter().filter(|((empty, _), _)| *empty).map(|(_, lines)| lines).sum();
    assert!(3 * empty > tally.values().sum(), "{empty} lines leave field seven empty");
}

#[test]
fn a_hundred_thousand_lines() {
    let mut random = Random(20_261_116);
    let (mut tally, mut long) = (BTreeMap::new(), 0);
    for _ in 0..100_000 {
        let input = random.input();
        let (output, old) = ask(&input, random.below(100) as usize);
        *tally.entry((leaves_empty(&input), old.err().unwrap_or((0, 0)))).or_default() += 1;
        // The first 71 bytes decide, and whatever follows them doesn't matter.
        if input.len() > 71 {
            for other in random.beyond_71(&input) {
                assert_eq!(ask(&other, 0), (output.clone(), old));
            }
            long += 1;
        }
    }
    covers(&tally);
    assert!(long > 2_000, "{long} lines are longer than 71 bytes");
}

/// An empty field seven gets its 2 exactly where there are 1 to 4,096 roots and the highest level is 2 to 21: level 2
/// never has too many leaves.
#[test]
fn every_number_of_roots() {
    for roots in 0..=4_097 {
        for highest in [0, 1, 2, 3, 21, 22] {
            let (output, _) = ask(format!("1;2;3;{roots};{highest};1;\n").as_bytes(), 1);
            let fits = (1..=4_096).contains(&roots) && (2..=21).contains(&highest);
            assert_eq!(output.ends_with(b";2\n"), fits, "{roots} roots, highest level {highest}");
        }
    }
}

#[test]
fn the_longest_lines() {
    let longest = b"999999999;999999999;999999999;4096;21;4096;0\n";
    assert_eq!(longest.len(), LONGEST_LINE);
    assert_eq!(ask(longest, 0).0, longest);
    let (output, _) = ask(b"999999999;999999999;999999999;4096;21;4096;\n", 0);
    assert_eq!(output, b"999999999;999999999;999999999;4096;21;4096;2\n");
}

#[test]
fn the_program_itself() {
    let fixed: [(&[u8], &[u8]); 12] = [
        (b"", b"refused 23 field 1\n"),
        (b"\n", b"refused 23 field 1\n"),
        (&[b'1'; 100_000], b"refused 23 field 1\n"),
        (b"1042;7;3;1;4;3;1\n", b"1042;7;3;1;4;3;1\n"),
        (b"1042;7;3;1;4;3;\n", b"1042;7;3;1;4;3;2\n"),
        (b"1042;7;3;1;2;3;\n", b"1042;7;3;1;2;3;2\n"),
        (b"1042;7;3;1;1;3;\n", b"refused 23 field 7\n"),
        (b"1042;7;3;1;4;3;", b"refused 23 field 8\n"),
        (b"1042;7;3;1;4;3;;\n", b"refused 23 field 8\n"),
        (b"1042;7;3;1;4;3\n", b"refused 23 field 7\n"),
        (b"999999999;999999999;999999999;4096;21;4096;\n", b"999999999;999999999;999999999;4096;21;4096;2\n"),
        (b"999999999;999999999;999999999;4096;21;4096;0\n", b"999999999;999999999;999999999;4096;21;4096;0\n"),
    ];
    for (input, output) in fixed {
        assert_eq!(printed("convert", input), output);
        assert_eq!(ask(input, 0).0, output);
    }
    let mut random = Random(72);
    for _ in 0..1_000 {
        let input = random.input();
        assert_eq!(printed("convert", &input), converted(&input), "{:?}", String::from_utf8_lossy(&input));
    }
}

/// One line a run: what the converter prints, it prints again, and the order program takes it.
#[test]
fn a_converted_line_from_program_to_program() {
    let line = printed("convert", b"1042;7;3;1;4;3;\n");
    assert_eq!(printed("convert", &line), line);
    let text = printed("order", &line);
    assert_eq!(text, b"order 1042 site 7 model 3 roots 1 level 2 leaves 64 shares 3\n0 0 21\n1 21 21\n2 42 22\n");
}
