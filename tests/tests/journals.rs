//! Generated journals through the built program, compared line for line with a plain scan.
use std::io::Write;
use std::path::PathBuf;
use std::process::{Command, Stdio};
use vetchdawn_tests::calls;
use vetchdawn_tests::guard::Guarded;
use vetchdawn_tests::journal::{form, printed};
use vetchdawn_tests::random::Random;
use vetchdawn_tests::stores::Sketches;

fn program() -> PathBuf {
    PathBuf::from(env!("CARGO_MANIFEST_DIR")).join("../target/bin/vetchdawn")
}

fn run(journal: &[u8]) -> String {
    let mut child = Command::new(program()).stdin(Stdio::piped()).stdout(Stdio::piped()).spawn().expect("the program is built");
    let mut input = child.stdin.take().unwrap();
    let bytes = journal.to_vec();
    // what is past 65,536 bytes may be left unread
    let writer = std::thread::spawn(move || drop(input.write_all(&bytes)));
    let output = child.wait_with_output().unwrap();
    writer.join().unwrap();
    assert!(output.status.success(), "{:?}", output.status);
    String::from_utf8(output.stdout).unwrap()
}

fn two(n: u32) -> [u8; 2] {
    [n as u8, (n >> 8) as u8]
}

/// An opening, mostly within the limits.
fn opening(random: &mut Random) -> (Vec<u8>, u32, u32) {
    let bad = random.below(30) == 0;
    let b = if bad { random.below(12) as u32 } else { 1 + random.below(8) as u32 };
    let longest = if random.below(4) == 0 { 64 } else { 10 };
    let m = if bad { random.below(256) as u32 } else { 1 + random.below(longest) as u32 };
    let q = if bad { random.below(10) as u32 } else { 1 + random.below(u64::from(m.clamp(1, 8))) as u32 };
    let threshold = [0, 1, 2, 8, 32, 65_535][random.below(6) as usize];
    let mut bytes = vec![b'I', b as u8, m as u8, q as u8];
    bytes.extend(two(threshold));
    (bytes, b, m)
}

/// One more command.
fn command(random: &mut Random, journal: &mut Vec<u8>, sketches: &Sketches, pages: u64) {
    let page = if random.below(40) == 0 { random.next() as u32 } else { random.below(pages) as u32 };
    let small = |random: &mut Random, n: u64| if random.below(40) == 0 { random.next() as u8 } else { random.below(n) as u8 };
    match random.below(20) {
        0..=8 => {
            journal.push(b'A');
            journal.extend(two(page));
            journal.push(small(random, 8));
            journal.extend(sketch(random, sketches));
        }
        9..=11 => {
            journal.push(b'D');
            journal.extend(two(page));
        }
        12 => journal.extend([b'J', small(random, 4), small(random, 4)]),
        13 => journal.extend([b'L', small(random, 4), small(random, 4)]),
        14 => journal.extend([b'G', small(random, 4), small(random, 8)]),
        15 => journal.extend([b'R', small(random, 4), small(random, 8)]),
        _ => {
            journal.extend([b'S', small(random, 4), small(random, 8)]);
            journal.extend(sketch(random, sketches));
        }
    }
}

fn sketch(random: &mut Random, sketches: &Sketches) -> Vec<u8> {
    let mut x = sketches.near(random, 3);
    match random.below(60) {
        0 => x[0] = random.next() as u8,
        1 => x.fill(0),
        _ => {}
    }
    x
}

fn journal(random: &mut Random) -> Vec<u8> {
    let (mut bytes, b, m) = opening(random);
    let (b, m) = (b.clamp(1, 8), m.clamp(1, 64));
    // now and then sketches so unlike each other that the nodes run out
    let wide = random.below(40) == 0;
    let centres = if wide { 400 } else { 1 + random.below(12) as usize };
    let sketches = Sketches::new(random, b, m, centres);
    for (reader, group) in [(0, 1), (1, 2), (2, 1)] {
        bytes.extend([b'J', reader, group]);
    }
    for class in 0..6 {
        bytes.extend([b'G', 1 + class % 2, class]);
    }
    let pages = if wide { 520 } else { [4, 40, 520][random.below(3) as usize] };
    let length = if wide || random.below(40) == 0 { 70_000 } else { 20 + random.below(4_000) as usize };
    while bytes.len() < length {
        command(random, &mut bytes, &sketches, pages);
        match random.below(3_000) {
            0 => bytes.push(b'I'),
            1 => bytes.push(random.next() as u8),
            _ => {}
        }
    }
    if random.below(4) == 0 {
        let at = random.below(bytes.len() as u64) as usize;
        bytes.truncate(at);
    }
    bytes
}

#[test]
fn generated_journals() {
    let mut random = Random::new(41);
    let mut numbers = [0usize; 16];
    let (mut listed, mut turned) = (0, 0);
    for round in 0..2_000 {
        let bytes = journal(&mut random);
        let want = printed(&bytes);
        assert_eq!(run(&bytes), want, "journal {round}");
        for line in want.lines() {
            let fields: Vec<&str> = line.split(' ').collect();
            match fields[0] {
                "E" => numbers[fields[2].parse::<usize>().unwrap()] += 1,
                "S" => {
                    let pages: Vec<u32> = fields[3..].iter().map(|hit| hit.split_once(':').unwrap().0.parse().unwrap()).collect();
                    listed += pages.len();
                    turned += usize::from(!pages.is_sorted());
                }
                _ => {}
            }
        }
    }
    assert!([1, 2, 3, 4, 7, 8, 9, 11, 12, 15].iter().all(|&n| numbers[n] > 10), "{numbers:?}");
    assert!(listed > 50_000 && turned > 1_000, "{listed} listed, {turned} lists not by page number");
}

#[test]
fn cut_at_every_offset() {
    let mut random = Random::new(42);
    for _ in 0..3 {
        let mut bytes = journal(&mut random);
        bytes.truncate(120);
        for n in 0..=bytes.len() {
            assert_eq!(run(&bytes[..n]), printed(&bytes[..n]));
        }
    }
}

#[test]
fn any_bytes() {
    let mut random = Random::new(43);
    for _ in 0..200 {
        let n = random.below(80) as usize;
        let mut bytes = random.bytes(n, 256);
        if random.below(2) == 0 {
            bytes.splice(0..0, [b'I', 2, 4, 2, 1, 0]);
        }
        assert_eq!(run(&bytes), printed(&bytes));
    }
}

#[test]
fn form_of_a_command() {
    let mut random = Random::new(44);
    let mut numbers = [0u32; 4];
    for _ in 0..200_000 {
        let n = random.below(70) as usize;
        let mut bytes = random.bytes(n, 256);
        if n > 0 && random.below(4) != 0 {
            bytes[0] = b"IADJLGRS"[random.below(8) as usize];
        }
        let (m, first) = (random.below(if n < 20 { 20 } else { 256 }) as u8, random.below(3) as u8);
        let number = calls::form(m, first, Guarded::new(&bytes).get());
        assert_eq!(number, form(m, first != 0, &bytes), "{m} {first} {bytes:?}");
        numbers[number as usize] += 1;
    }
    assert!(numbers.iter().all(|&n| n > 5_000), "{numbers:?}");
}

/// An add of a page whose four blocks have the bytes v and 1.
fn add(page: u32, v: u32) -> Vec<u8> {
    let [low, high] = two(page);
    let mut bytes = vec![b'A', low, high, 3];
    bytes.extend([v as u8, 1].repeat(4));
    bytes
}

/// With threshold 0 a deposit of 128 pages needs all 1,024 nodes: four roots, and two nodes a page in each block but for the first page,
/// which has one. It is withdrawn, and another one fits (document 02, F-2).
#[test]
fn a_deposit_after_another() {
    let mut bytes = vec![b'I', 8, 8, 4, 0, 0];
    let mut want = String::new();
    for first in [0, 128] {
        (0..128).for_each(|i| bytes.extend(add(i, first + i)));
        // one more, with a byte of its own
        want += &format!("E {} 12\n", bytes.len());
        bytes.extend(add(200, (first + 128) % 256));
        (0..128).for_each(|i| bytes.extend([b'D', two(i)[0], two(i)[1]]));
    }
    want += &format!("Z {}\n", bytes.len());
    assert_eq!(printed(&bytes), want);
    assert_eq!(run(&bytes), want);
}

/// An opening with b 2, m 4, q 2 and threshold 1.
const OPEN: [u8; 6] = [b'I', 2, 4, 2, 1, 0];

#[test]
fn stored_examples() {
    let after = |rest: &[u8]| [&OPEN[..], rest].concat();
    let cases: Vec<(Vec<u8>, &str)> = vec![
        (vec![], "Z 0\n"),
        // 1, 2 and 3 stop the program where the command stands
        (vec![b'T'], "E 0 1\nZ 0\n"),
        (vec![b'J', 1, 1], "E 0 2\nZ 0\n"),
        (vec![b'J'], "E 0 2\nZ 0\n"),
        (OPEN[..5].to_vec(), "E 0 3\nZ 0\n"),
        (OPEN.to_vec(), "Z 6\n"),
        (after(b"I"), "E 6 2\nZ 6\n"),
        (after(&OPEN), "E 6 2\nZ 6\n"),
        (after(&[0, b'J', 1, 1]), "E 6 1\nZ 6\n"),
        (after(&[b'A', 1, 0, 3, 0, 1, 2]), "E 6 3\nZ 6\n"),
        // 4 too; 7 and up do not
        (vec![b'I', 9, 4, 2, 1, 0, b'J', 1, 1], "E 0 4\nZ 0\n"),
        (vec![b'I', 2, 4, 5, 1, 0], "E 0 4\nZ 0\n"),
        (after(&[b'J', 1, 32, b'J', 1, 31]), "E 6 7\nZ 12\n"),
        (after(&[b'D', 0, 2, b'D', 255, 1]), "E 6 8\nE 9 9\nZ 12\n"),
        (after(&[b'A', 1, 0, 64, 0, 1, 2, 3]), "E 6 7\nZ 14\n"),
        (after(&[b'A', 1, 0, 3, 0, 1, 2, 4]), "E 6 11\nZ 14\n"),
        (after(&[b'A', 1, 0, 3, 0, 1, 2, 3, b'A', 1, 0, 3, 0, 1, 2, 3]), "E 14 9\nZ 22\n"),
        // a blank page is refused, and the next command is carried out; 9 is asked first; a query of zeros is legal
        (after(&[b'A', 1, 0, 3, 0, 0, 0, 0, b'A', 1, 0, 3, 0, 0, 0, 1, b'A', 1, 0, 3, 0, 0, 0, 0]), "E 6 15\nE 22 9\nZ 30\n"),
        (after(&[b'J', 0, 0, b'G', 0, 9, b'A', 1, 0, 9, 0, 0, 0, 1, b'A', 2, 0, 9, 0, 0, 0, 0, b'S', 0, 1, 0, 0, 0, 0]), "E 20 15\nS 0 1 1:1\nZ 35\n"),
        (after(&[b'S', 0, 65, 0, 1, 2, 3]), "E 6 7\nZ 13\n"),
        (after(&[b'S', 255, 64, 0, 1, 2, 3]), "S 255 0\nZ 13\n"),
        // block distances 1 and 2 are within radius 3; a page added, closed and opened again
        (after(&[b'J', 0, 0, b'G', 0, 9, b'A', 0, 1, 9, 1, 1, 0, 0, b'S', 0, 3, 0, 1, 1, 1]), "S 0 1 256:3\nZ 27\n"),
        (after(&[b'J', 0, 0, b'G', 0, 9, b'A', 0, 1, 9, 1, 0, 0, 0, b'S', 0, 3, 0, 1, 1, 1]), "S 0 0\nZ 27\n"),
        // a class by two groups: a revoke closes it to those of one, a leave to the reader of both
        (
            after(&[
                &[b'J', 0, 0, b'J', 0, 1, b'J', 9, 0, b'G', 0, 9, b'G', 1, 9, b'A', 1, 0, 9, 1, 1, 1, 1, b'S', 9, 0, 1, 1, 1, 1][..],
                &[b'R', 0, 9, b'S', 0, 0, 1, 1, 1, 1, b'S', 9, 0, 1, 1, 1, 1, b'L', 0, 1, b'S', 0, 0, 1, 1, 1, 1],
            ].concat()),
            "S 9 1 1:0\nS 0 1 1:0\nS 9 0\nS 0 0\nZ 63\n",
        ),
        // the nearest first; those at one distance by page number, whenever they were added; a distance of two digits
        (
            after(&[
                &[b'J', 0, 0, b'G', 0, 9][..],
                &[b'A', 0, 1, 9, 1, 1, 1, 1, b'A', 9, 0, 9, 2, 1, 1, 1, b'A', 3, 0, 9, 1, 1, 1, 2, b'A', 4, 0, 9, 2, 2, 2, 2],
                &[b'S', 0, 4, 1, 1, 1, 1, b'S', 0, 0, 2, 2, 2, 2, b'D', 3, 0, b'S', 0, 1, 1, 1, 1, 1],
            ].concat()),
            "S 0 4 256:0 3:1 9:1 4:4\nS 0 1 4:0\nS 0 2 256:0 9:1\nZ 68\n",
        ),
        (
            [&[b'I', 1, 64, 8, 1, 0, b'J', 0, 0, b'G', 0, 9, b'A', 5, 0, 9][..], &[1; 64], &[b'S', 0, 64], &[0; 64]].concat(),
            "S 0 1 5:64\nZ 147\n",
        ),
    ];
    for (bytes, want) in cases {
        assert_eq!(printed(&bytes), want, "{bytes:?}");
        assert_eq!(run(&bytes), want, "{bytes:?}");
    }
}
