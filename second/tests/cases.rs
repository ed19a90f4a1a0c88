//! The cases of document 01: the answers, the program's text, the run's buffer.

use second::cases;
use second::history::{Ending, History, Transaction};
use second::rules::{Published, Rules};
use second::steps::{join, split, Answer, Step};

#[test]
fn each_case_gets_its_answers() {
    for case in cases::all() {
        assert_eq!(Published.answers(&case.file).unwrap(), case.answers, "case {}", case.name);
    }
}

/// P1's input and output, typed from document 01.
#[test]
fn p1_prints_what_document_01_says() {
    let hex = "00 0200 01 01 02 0100 0000 02 0200 0100 03 0100 0100 28000000 03 0200 0000 32000000 04 0100 04 0200 06 0100 06 0000";
    let digits: Vec<u8> = hex.bytes().filter(|b| *b != b' ').collect();
    let byte = |pair: &[u8]| u8::from_str_radix(std::str::from_utf8(pair).unwrap(), 16).unwrap();
    let file: Vec<u8> = digits.chunks(2).map(byte).collect();
    assert_eq!(file, cases::all()[0].file);
    assert_eq!(Published.print(&file), "0 0\n0 1\n0 2\n0 0\n0 0\n0 0\n0 0\n0 3\n8 0\n0 40\n0 0\n");
}

#[test]
fn the_run_returns_its_number_and_keeps_the_rest_of_the_buffer() {
    let mut buffer = [0xEE; 16];
    assert_eq!(Published.run(&[], &mut buffer), 0);
    assert_eq!(buffer, [0xEE; 16]);
    assert_eq!(Published.run(&[], &mut []), 0);
    // Two answers, the second a 10 whose value is the offset of the kind byte.
    assert_eq!(Published.run(&[0, 1, 0, 9], &mut buffer[..9]), 12 << 16);
    assert_eq!(buffer, [0xEE; 16]);
    assert_eq!(Published.run(&[0, 1, 0, 9], &mut buffer), (10 << 16) + 2);
    assert_eq!(buffer[..11], [0, 0, 0, 0, 0, 10, 3, 0, 0, 0, 0xEE]);
}

#[test]
fn files_above_8192_bytes_get_11() {
    let mut file = vec![1; 8192];
    assert_eq!(Published.print(&file).lines().count(), 8192);
    let mut buffer = vec![0; 5 * 8192];
    assert_eq!(Published.run(&file, &mut buffer), 8192);
    assert_eq!(Published.run(&file, &mut buffer[1..]), 12 << 16);
    file.push(1);
    assert_eq!(Published.print(&file), "11 0\n");
    assert_eq!(Published.run(&file, &mut []), 11 << 16);
}

#[test]
fn number_65535_is_the_last() {
    let mut h = History::opened(1);
    for number in 1..=65534 {
        h.transactions.push(Transaction {
            number,
            start: u32::from(number),
            ending: Ending::Aborted,
            reads: vec![],
            writes: vec![],
        });
        h.spent.push(false);
    }
    assert_eq!(Published.step(&mut h, Step::Begin), Answer { number: 0, value: 65535 });
    assert_eq!(Published.step(&mut h, Step::Begin), Answer { number: 4, value: 0 });
}

#[test]
fn a_file_is_its_steps() {
    for case in cases::all() {
        let (steps, rest) = split(&case.file);
        assert_eq!([join(&steps), rest.to_vec()].concat(), case.file);
    }
}
