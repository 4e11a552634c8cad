//! Draws the table that bench_search prints, from standard input, as an SVG: search time against n, and against r, beside the scans.
use std::io::Read;

/// One line of the table.
struct Row {
    n: f64,
    b: u32,
    m: u32,
    r: u32,
    q: u32,
    clustered: bool,
    // microseconds, way by way
    times: Vec<Option<f64>>,
}

const WAYS: [(&str, &str); 5] = [
    ("this search", "#b3261e"),
    ("pointer trie", "#6b3fa0"),
    ("hashing of blocks", "#c58b00"),
    ("scan of packed rows", "#3a6ea5"),
    ("scan of bit planes", "#2e8b57"),
];

fn rows(text: &str) -> Vec<Row> {
    let row = |line: &str| {
        let f: Vec<&str> = line.split_whitespace().collect();
        let number = |i: usize| f.get(i).and_then(|s| s.parse::<u32>().ok());
        Some(Row {
            n: number(0)?.into(),
            b: number(1)?,
            m: number(2)?,
            r: number(3)?,
            q: number(4)?,
            clustered: *f.get(5)? == "clustered",
            times: (10..10 + WAYS.len()).map(|i| f.get(i).and_then(|s| s.parse().ok())).collect(),
        })
    };
    text.lines().filter_map(row).collect()
}

/// A panel with logarithmic times; `xs` are the marks of the other axis.
fn panel(out: &mut String, left: f64, title: &str, xs: &[String], lines: &[Vec<Option<f64>>]) {
    let (width, height, top) = (360.0, 300.0, 60.0);
    let all = lines.iter().flatten().flatten();
    let low = all.clone().fold(f64::MAX, |a, &b| a.min(b)).log10().floor();
    let high = all.fold(0f64, |a, &b| a.max(b)).log10().ceil();
    let x = |i: usize| left + width * (i as f64 + 0.5) / xs.len() as f64;
    let y = |t: f64| top + height * (1.0 - (t.log10() - low) / (high - low));
    out.push_str(&format!("<text x='{left}' y='40' font-weight='bold'>{title}</text>\n"));
    for power in low as i32..=high as i32 {
        let at = y(10f64.powi(power));
        out.push_str(&format!("<line x1='{left}' x2='{}' y1='{at:.1}' y2='{at:.1}' stroke='#ddd'/>\n", left + width));
        out.push_str(&format!("<text x='{}' y='{:.1}' text-anchor='end'>{}</text>\n", left - 6.0, at + 4.0, 10f64.powi(power)));
    }
    for (i, mark) in xs.iter().enumerate() {
        out.push_str(&format!("<text x='{:.1}' y='{}' text-anchor='middle'>{mark}</text>\n", x(i), top + height + 18.0));
    }
    for (line, (_, colour)) in lines.iter().zip(WAYS) {
        let points: Vec<String> = line.iter().enumerate().filter_map(|(i, t)| t.map(|t| format!("{:.1},{:.1}", x(i), y(t)))).collect();
        out.push_str(&format!("<polyline points='{}' fill='none' stroke='{colour}' stroke-width='2'/>\n", points.join(" ")));
        for point in &points {
            let (px, py) = point.split_once(',').unwrap();
            out.push_str(&format!("<circle cx='{px}' cy='{py}' r='3' fill='{colour}'/>\n"));
        }
    }
}

/// For each way its times over some rows.
fn lines(rows: &[&Row]) -> Vec<Vec<Option<f64>>> {
    (0..WAYS.len()).map(|way| rows.iter().map(|r| r.times[way]).collect()).collect()
}

fn main() {
    let mut text = String::new();
    std::io::stdin().read_to_string(&mut text).unwrap();
    let rows = rows(&text);
    let chosen = |r: &&Row| r.b == 4 && r.m == 32 && !r.clustered;
    let mut by_n: Vec<&Row> = rows.iter().filter(chosen).filter(|r| (r.r, r.q) == (3, 4)).collect();
    by_n.sort_by(|x, y| x.n.total_cmp(&y.n));
    let mut by_r: Vec<&Row> = rows.iter().filter(chosen).filter(|r| r.n == 65_535.0).collect();
    by_r.sort_by_key(|r| (r.r, r.q));
    let mut out = String::from("<svg xmlns='http://www.w3.org/2000/svg' width='1010' height='440' font-family='sans-serif' font-size='12'>\n<rect width='100%' height='100%' fill='white'/>\n");
    panel(&mut out, 60.0, "Microseconds against n (r 3, q 4)", &by_n.iter().map(|r| r.n.to_string()).collect::<Vec<_>>(), &lines(&by_n));
    panel(&mut out, 480.0, "Microseconds against r and q (n 65,535)", &by_r.iter().map(|r| format!("{}/{}", r.r, r.q)).collect::<Vec<_>>(), &lines(&by_r));
    for (i, (name, colour)) in WAYS.iter().enumerate() {
        let at = 80.0 + 22.0 * i as f64;
        out.push_str(&format!("<rect x='860' y='{}' width='14' height='4' fill='{colour}'/><text x='880' y='{}'>{name}</text>\n", at - 6.0, at));
    }
    out.push_str("<text x='60' y='425'>b 4, m 32, threshold 32, random sketches; one run, 1,000 searches in a row</text>\n</svg>\n");
    print!("{out}");
}
