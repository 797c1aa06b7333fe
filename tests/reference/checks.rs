//! What document 01 fixes in figures, compared with this interpreter.
//! Run: mkdir -p target && rustc -O --edition 2021 --test tests/reference/main.rs -o target/reference-checks && target/reference-checks

use crate::codes::{rows, REWRITES_PC};
use crate::corpus::{reports, write};
use crate::decode::{words_of, Decoder};
use crate::machine::{Machine, Mode};
use crate::memory::Memory;
use crate::report::report;
use crate::step::{run, step};

const AT: u32 = 0x200;

fn memory_with(words: &[u16]) -> Memory {
    let mut memory = Memory::new(vec![0; 1_024]);
    for (index, word) in words.iter().enumerate() {
        memory.write_word(AT + 2 * index as u32, *word as u32).unwrap();
    }
    memory
}

fn machine(sr: u32, registers: &[(usize, u32)]) -> Machine {
    let mut c = Machine::at_reset(AT, 0x400);
    c.sr = sr;
    for (number, value) in registers {
        c.r[*number] = *value;
    }
    c
}

fn stepped(word: u16, sr: u32, registers: &[(usize, u32)]) -> Machine {
    let mut c = machine(sr, registers);
    assert!(step(&Decoder::new(), &mut c, &mut memory_with(&[word])));
    c
}

#[test]
fn the_code_table_has_142_rows_that_share_no_word() {
    assert_eq!(rows().count(), 142);
    let decoder = Decoder::new();
    let defined = (0..=0xFFFF).filter(|word| decoder.meaning(*word).is_some()).count();
    let named = rows().map(|row| words_of(row).len()).sum();
    assert_eq!((defined, named), (53_752, 53_752));
}

#[test]
fn every_name_that_rewrites_pc_is_in_the_table() {
    assert_eq!(rows().filter(|row| row.rewrites_pc()).count(), REWRITES_PC.len());
}

#[test]
fn the_corpus_writer_has_the_same_code_table() {
    let other = include_str!("../corpus/codes.py");
    for row in rows() {
        let line = format!("(\"{}\", \"{}\"),", row.pattern, row.text);
        assert!(other.contains(&line), "{line}");
    }
    assert_eq!(other.matches("    (\"").count(), 142);
}

#[test]
fn codes_that_are_undefined() {
    let decoder = Decoder::new();
    for word in [0xFFFF, 0x0109, 0x0108, 0x010B, 0x0000, 0x0038, 0x0048, 0x0058, 0x0183, 0x412C, 0x412D] {
        assert!(decoder.meaning(word).is_none(), "{word:04X}");
    }
}

#[test]
fn twelve_small_facts() {
    let c = stepped(0x310F, 0, &[(0, 2), (1, 0x7FFF_FFFE)]);
    assert_eq!((c.r[1], c.sr), (0x8000_0000, 1), "ADDV");
    let c = stepped(0x4025, 1, &[(0, 1)]);
    assert_eq!((c.r[0], c.sr), (0x8000_0000, 1), "ROTCR");
    let c = stepped(0x4004, 0, &[(0, 0x8000_0000)]);
    assert_eq!((c.r[0], c.sr), (1, 1), "ROTL");
    assert_eq!(stepped(0x4009, 0, &[(0, 0x1234_5678)]).r[0], 0x048D_159E, "SHLR2");
    let c = stepped(0x4021, 0, &[(0, 0x8000_0001)]);
    assert_eq!((c.r[0], c.sr), (0xC000_0000, 1), "SHAR");
    let c = stepped(0x4010, 0, &[(0, 1)]);
    assert_eq!((c.r[0], c.sr), (0, 1), "DT");
    assert_eq!(stepped(0x610E, 0, &[(0, 0x80)]).r[1], 0xFFFF_FF80, "EXTS.B");
    let c = stepped(0x611A, 0, &[(1, 1)]);
    assert_eq!((c.r[1], c.sr), (0xFFFF_FFFF, 1), "NEGC");
    assert_eq!(stepped(0x8B80, 0, &[]).pc, 0x104, "BF");
    let c = stepped(0x3104, 1, &[(0, 3), (1, 1)]);
    assert_eq!((c.r[1], c.sr), (0, 1), "DIV1 with T 1");
    let c = stepped(0x3104, 0, &[(0, 3), (1, 1)]);
    assert_eq!((c.r[1], c.sr), (0xFFFF_FFFF, 0x100), "DIV1 with T 0");
}

/// The 66 words of "The division, in full": low in R2, high in R1, the divisor in R0.
fn division() -> Vec<u16> {
    let pairs = (0..32).flat_map(|_| [0x4224, 0x3104]);
    [0x0019].into_iter().chain(pairs).chain([0x4224]).collect()
}

#[test]
fn divisions_cut_anywhere() {
    let decoder = Decoder::new();
    let given = [(0, 100, 7), (1, 0, 3), (6, 0xFFFF_FFFF, 7), (0, 100, 0)];
    let expected = [(14, 0xFFFF_FFFB, 1), (0x5555_5555, 1, 0), (0xFFFF_FFFF, 6, 0), (0xFFFF_FFFF, 100, 0)];
    for ((high, low, divisor), (quotient, rest, q)) in given.into_iter().zip(expected) {
        for cut in 0..=66 {
            let mut c = machine(0x3F3, &[(0, divisor), (1, high), (2, low)]);
            let mut memory = memory_with(&division());
            let first = run(&decoder, &mut c, &mut memory, cut);
            let second = run(&decoder, &mut c, &mut memory, 66 - cut);
            assert_eq!((first + second, c.pc, c.mode), (66, AT + 132, Mode::Running));
            assert_eq!((c.r[2], c.r[1], c.sr), (quotient, rest, 0xF2 | q << 8));
        }
    }
}

#[test]
fn the_example_of_the_runner() {
    let mut image = vec![0; 1_024];
    image[..8].copy_from_slice(&[0, 0, 2, 0, 0, 0, 4, 0]);
    image[0x200..0x204].copy_from_slice(&[0xE0, 0x05, 0x00, 0x1B]);
    let expected = "state asleep steps 2\npc 00000204 sr 000000f0\nr0 00000005\nr15 00000400\n";
    assert_eq!(report(&Decoder::new(), &image), expected);
    let together = reports(&Decoder::new(), &write(&[image, vec![]])).unwrap();
    assert_eq!(together, format!("image 1\n{expected}image 2\nrefused 2\n"));
}

#[test]
fn refused_lengths() {
    let lengths = [(0, 2), (1, 1), (1_020, 2), (1_022, 1), (1_023, 1), (65_535, 1), (65_537, 2), (65_540, 2)];
    for (length, number) in lengths {
        assert_eq!(report(&Decoder::new(), &vec![0; length]), format!("refused {number}\n"), "{length}");
    }
    for length in [1_024, 65_536] {
        assert!(report(&Decoder::new(), &vec![0; length]).starts_with("state "), "{length}");
    }
}
