//! The journal of document 01 and what the program prints for it, by a plain scan. Written from the document.
use crate::tables::Settings;
use crate::trees::Index;
use std::fmt::Write;

pub const BYTES: usize = 65_536;
pub const PAGES: u32 = 512;
pub const NODES: u32 = 1_024;

/// How many bytes the operands of a command take, where it is known.
pub fn operands(command: u8, m: usize) -> Option<usize> {
    Some(match command {
        b'I' => 5,
        b'A' => 3 + m,
        b'D' => 2,
        b'J' | b'L' | b'G' | b'R' => 2,
        b'S' => 2 + m,
        _ => return None,
    })
}

/// Questions 1 to 3 of the command that the bytes begin with.
pub fn form(m: u8, first: bool, bytes: &[u8]) -> u32 {
    let Some(&command) = bytes.first() else { return 1 };
    let Some(count) = operands(command, usize::from(m)) else { return 1 };
    if (command == b'I') != first {
        return 2;
    }
    if bytes.len() < 1 + count {
        return 3;
    }
    0
}

pub fn printed(input: &[u8]) -> String {
    let bytes = &input[..input.len().min(BYTES)];
    let mut out = String::new();
    let mut index: Option<Index> = None;
    let mut at = 0;
    while at < bytes.len() {
        let rest = &bytes[at..];
        let m = index.as_ref().map_or(0, |i| i.settings.m as u8);
        let number = form(m, at == 0, rest);
        if number != 0 {
            writeln!(out, "E {at} {number}").unwrap();
            break;
        }
        let count = operands(rest[0], usize::from(m)).unwrap();
        let x = &rest[1..1 + count];
        let one = |i: usize| u32::from(x[i]);
        let two = |i: usize| one(i) + 256 * one(i + 1);
        let number = match (rest[0], &mut index) {
            (b'I', _) => {
                let s = Settings { b: one(0), m: one(1), q: one(2), pages: PAGES, nodes: NODES, thresholds: vec![two(3) as u16; 64] };
                if !s.within_limits() {
                    writeln!(out, "E {at} 4").unwrap();
                    break;
                }
                index = Some(Index::open(s));
                0
            }
            (b'A', Some(i)) => i.add(two(0), one(2), &x[3..]),
            (b'D', Some(i)) => i.drop(two(0)),
            (b'J', Some(i)) => i.join(one(0), one(1)),
            (b'L', Some(i)) => i.leave(one(0), one(1)),
            (b'G', Some(i)) => i.grant(one(0), one(1)),
            (b'R', Some(i)) => i.revoke(one(0), one(1)),
            (_, Some(i)) => match i.search(one(0), one(1), &x[2..]) {
                Ok(list) => {
                    write!(out, "S {} {}", one(0), list.len()).unwrap();
                    list.iter().for_each(|hit| write!(out, " {}:{}", hit.page, hit.distance).unwrap());
                    out.push('\n');
                    0
                }
                Err(number) => number,
            },
            (_, None) => unreachable!("the first command is I"),
        };
        if number != 0 {
            writeln!(out, "E {at} {number}").unwrap();
        }
        at += 1 + count;
    }
    writeln!(out, "Z {at}").unwrap();
    out
}

#[test]
fn worked_example() {
    let hex = "49 02 04 02 01 00 4A 05 01 47 01 03 41 07 00 03 00 01 02 03 41 09 00 04 00 01 02 02 41 02 00 03 00 01 00 00 \
               53 05 02 00 01 02 03 52 01 03 53 05 02 00 01 02 03 41 58 02 03 00 00 00 00";
    let bytes: Vec<u8> = hex.split_whitespace().map(|h| u8::from_str_radix(h, 16).unwrap()).collect();
    assert_eq!(printed(&bytes), "S 5 2 7:0 2:2\nS 5 0\nE 53 8\nZ 61\n");
    assert_eq!(printed(&[]), "Z 0\n");
}
