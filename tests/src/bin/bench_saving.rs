//! Tables written to a file and read again: what the calls say of a file as it was written, and of others. Answers, not times.
use std::fs::{self, File};
use std::io::{self, Write};
use std::path::Path;
use vetchdawn_tests::calls;
use vetchdawn_tests::random::Random;
use vetchdawn_tests::tables::{Settings, Tables, ENTRIES, FREE, MEMBERS};

const PAGES: u32 = 1_000;
const SETTINGS: Settings = Settings { b: 4, m: 32, q: 4, pages: PAGES, nodes: 8_000, thresholds: Vec::new() };
const READER: u32 = 5;
const GROUP: u32 = 2;
const CLASS: u32 = 7;

fn settings() -> Settings {
    Settings { thresholds: vec![8; 64], ..SETTINGS }
}

/// The words in the machine's byte order.
fn bytes(words: &[u32]) -> Vec<u8> {
    words.iter().flat_map(|w| w.to_ne_bytes()).collect()
}

fn words(bytes: &[u8]) -> Vec<u32> {
    bytes.chunks_exact(4).map(|w| u32::from_ne_bytes(w.try_into().unwrap())).collect()
}

/// Settings, nodes, pages, sketches: to a new file, which then takes the place of the old one. The working table is not written.
fn save(t: &Tables, path: &Path) -> io::Result<()> {
    let new = path.with_extension("new");
    let mut file = File::create(&new)?;
    for part in [&bytes(&t.settings), &bytes(&t.nodes), &bytes(&t.pages), &t.sketches] {
        file.write_all(part)?;
    }
    file.sync_all()?;
    fs::rename(&new, path)?;
    File::open(path.parent().unwrap())?.sync_all()
}

/// As many bytes as the lengths say, or as there are; the working table is full of ones.
fn load(path: &Path) -> io::Result<Tables> {
    let file = fs::read(path)?;
    let (_, l) = calls::lengths(&settings());
    let mut rest = &file[..];
    let mut take = |n: usize| {
        let (part, behind) = rest.split_at(n.min(rest.len()));
        rest = behind;
        part
    };
    let [s, n, p] = [l.settings, l.nodes, l.pages].map(|n| words(take(4 * n)));
    Ok(Tables { settings: s, nodes: n, pages: p, sketches: take(l.sketches).to_vec(), working: vec![u32::MAX; l.working] })
}

fn sketch(page: u32) -> Vec<u8> {
    Random::new(1_000 + u64::from(page)).bytes(32, 16)
}

fn add(t: &mut Tables, pages: std::ops::Range<u32>) {
    pages.for_each(|p| assert_eq!(calls::add(&mut t.lend(), p, CLASS, &sketch(p)), 0));
}

/// An index with 600 pages of one class, open to the reader.
fn index() -> Tables {
    let mut t = Tables::filled_with(0, &settings());
    assert_eq!(calls::open(&mut t, &settings()), 0);
    add(&mut t, 0..600);
    assert_eq!(calls::join(&mut t, READER, GROUP), 0);
    assert_eq!(calls::grant(&mut t, GROUP, CLASS), 0);
    t
}

/// What a search with radius 64 gives, the check, and an add on a copy.
fn print(name: &str, mut t: Tables) {
    let places = || vec![0u16; PAGES as usize];
    let check = calls::check(&mut t.lend());
    let search = calls::search(&mut t.lend(), READER, 64, &sketch(0), &mut places(), &mut places());
    let add = calls::add(&mut t.lend(), 999, CLASS, &sketch(999));
    let check = match check {
        (0, true) => "yes".to_string(),
        (0, false) => "no".to_string(),
        (number, _) => number.to_string(),
    };
    println!("{name:66} {check:>5} {:7} {:6} {add:5}", search.number, search.value);
}

fn swapped(words: &[u32]) -> Vec<u32> {
    words.iter().map(|w| w.swap_bytes()).collect()
}

fn other_orders(t: &Tables) {
    let (s, n, p) = (swapped(&t.settings), swapped(&t.nodes), swapped(&t.pages));
    println!("the first word of swapped settings is {:08x}", s[0]);
    print("every word swapped", Tables { settings: s.clone(), nodes: n.clone(), pages: p.clone(), ..t.clone() });
    print("settings alone swapped", Tables { settings: s, ..t.clone() });
    print("nodes and pages swapped", Tables { nodes: n.clone(), pages: p.clone(), ..t.clone() });
    print("nodes alone swapped", Tables { nodes: n, ..t.clone() });
    print("pages alone swapped", Tables { pages: p, ..t.clone() });
}

fn cut(t: &Tables) {
    let less = |words: &[u32]| words[..words.len() - 1].to_vec();
    print("settings a word short", Tables { settings: less(&t.settings), ..t.clone() });
    print("nodes a word short", Tables { nodes: less(&t.nodes), ..t.clone() });
    print("pages a word short", Tables { pages: less(&t.pages), ..t.clone() });
    print("sketches a byte short", Tables { sketches: t.sketches[..t.sketches.len() - 1].to_vec(), ..t.clone() });
    let mut zeros = t.clone();
    zeros.sketches[500 * 32..].fill(0);
    print("the last rows zero, as where a cut file was read into zeros", zeros);
}

/// Some tables of one moment and the rest of another: behind ten further pages, behind a revoke, behind a page that has another class.
fn mixed(t: &Tables) {
    let mut later = t.clone();
    add(&mut later, 600..610);
    print("settings of before ten adds, the rest of after", Tables { settings: t.settings.clone(), ..later.clone() });
    print("nodes of before", Tables { nodes: t.nodes.clone(), ..later.clone() });
    print("pages of before", Tables { pages: t.pages.clone(), ..later.clone() });
    print("sketches of before", Tables { sketches: t.sketches.clone(), ..later.clone() });
    let mut revoked = t.clone();
    assert_eq!(calls::revoke(&mut revoked, GROUP, CLASS), 0);
    print("after a revoke", revoked.clone());
    let mut entries = revoked.clone();
    entries.settings[ENTRIES..FREE].copy_from_slice(&t.settings[ENTRIES..FREE]);
    print("entries of before the revoke, records of after: the right is back", entries);
    let mut records = revoked.clone();
    records.settings[MEMBERS..ENTRIES].copy_from_slice(&t.settings[MEMBERS..ENTRIES]);
    print("records of before the revoke, entries of after", records);
    print("settings of before the revoke: the right is back", Tables { settings: t.settings.clone(), ..revoked });
    let mut moved = Tables::filled_with(0, &settings());
    assert_eq!(calls::open(&mut moved, &settings()), 0);
    moved.settings[MEMBERS..FREE].copy_from_slice(&t.settings[MEMBERS..FREE]);
    add(&mut moved, 0..1);
    let before = moved.clone();
    assert_eq!((calls::drop(&mut moved.lend(), 0), calls::add(&mut moved.lend(), 0, CLASS + 1, &sketch(0))), (0, 0));
    print("one page, dropped and added with a class that is closed", moved.clone());
    print("pages of before: the page is open again", Tables { pages: before.pages, ..moved });
}

fn main() -> io::Result<()> {
    let folder = std::env::temp_dir().join(format!("vetchdawn-{}", std::process::id()));
    fs::create_dir_all(&folder)?;
    let (path, t) = (folder.join("index"), index());
    println!("b 4, m 32, q 4, 1,000 pages, 8,000 nodes; 600 pages in it. The check; a search with radius 64, its number and how many it lists; an add.");
    println!("tables                                                             check  search listed   add");
    save(&t, &path)?;
    let loaded = load(&path)?;
    fs::remove_dir_all(&folder)?;
    assert!(loaded.settings == t.settings && loaded.nodes == t.nodes && loaded.pages == t.pages && loaded.sketches == t.sketches);
    print("saved and loaded, the working table full of ones", loaded);
    print("a working table a word short", Tables { working: vec![0; t.working.len() - 1], ..t.clone() });
    other_orders(&t);
    cut(&t);
    mixed(&t);
    Ok(())
}
