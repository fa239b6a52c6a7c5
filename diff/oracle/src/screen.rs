//! Document 01's screen file: what `boxlist` must print for it (`set::answer`). Also random screens.
use crate::case::{at, float, Case, CANDIDATE, LENGTH, LENGTHS, STYLE, SUM};
use crate::gen;
use crate::host::Random;
use crate::run::{run, Host, Kind, Question, Transcript};
use crate::set::{answer, By};

const LIMIT: i64 = 9_999_999;
/// The style words that hold floats, a length's two values among them whatever its tag; the candidate words too
fn style_float(i: usize) -> bool {
    (i < LENGTH * LENGTHS && i % LENGTH != 0) || i == at::RATIO || i == at::SCROLLBAR
}
fn candidate_float(i: usize) -> bool {
    matches!(i, 3 | 4 | 8 | 9)
}

/// A field of 11 columns: blanks, at most one sign, one or more digits
fn field(text: &[u8]) -> Option<i64> {
    let text = &text[text.iter().take_while(|&&b| b == b' ').count()..];
    let (negative, digits) = match text.first()? {
        b'-' => (true, &text[1..]),
        b'+' => (false, &text[1..]),
        _ => (false, text),
    };
    if digits.is_empty() || !digits.iter().all(u8::is_ascii_digit) {
        return None;
    }
    let value: i64 = std::str::from_utf8(digits).unwrap().parse().ok()?;
    Some(if negative { -value } else { value })
}
fn code(v: i64) -> Option<u32> {
    u32::try_from(v).ok()
}
fn eighths(v: i64) -> Option<u32> {
    (v.abs() <= LIMIT).then(|| (v as f32 / 8.0).to_bits())
}
fn fields(line: &[u8], count: usize) -> Option<Vec<i64>> {
    if line.len() != 11 * count {
        return None;
    }
    line.chunks(11).map(field).collect()
}

pub struct Screen {
    pub case: Case,
    /// For each item: measured width and height, overflow left right top bottom
    pub replies: Vec<[u32; 6]>,
}

pub fn parse(text: &[u8]) -> Option<Screen> {
    let mut lines: Vec<&[u8]> = text.split(|&b| b == b'\n').collect();
    if lines.pop()? != b"" {
        return None;
    }
    let head = fields(lines.first()?, 10)?;
    let mut area = [0; 8];
    for i in 0..8 {
        area[i] = if i < 4 { eighths(head[i])? } else { code(head[i])? };
    }
    let (n, m) = (code(head[8])? as usize, code(head[9])? as usize);
    if n > 128 || m > 256 || lines.len() != 1 + n + m {
        return None;
    }
    let mut case = Case { name: String::new(), area, styles: vec![], candidates: vec![] };
    let mut replies = vec![];
    for line in &lines[1..1 + n] {
        let f = fields(line, STYLE + 6)?;
        let mut style = [0; STYLE];
        for i in 0..STYLE {
            style[i] = if style_float(i) { eighths(f[i])? } else { code(f[i])? };
        }
        let mut reply = [0; 6];
        for i in 0..6 {
            reply[i] = eighths(f[STYLE + i])?;
        }
        case.styles.push(style);
        replies.push(reply);
    }
    for line in &lines[1 + n..] {
        let f = fields(line, CANDIDATE)?;
        let mut c = [0; CANDIDATE];
        for i in 0..CANDIDATE {
            c[i] = if candidate_float(i) { eighths(f[i])? } else { code(f[i])? };
        }
        case.candidates.push(c);
    }
    Some(Screen { case, replies })
}

struct Items<'a>(&'a [[u32; 6]]);
impl Host for Items<'_> {
    fn answer(&mut self, q: &Question) -> Vec<u32> {
        let r = self.0[q.node as usize];
        match q.kind {
            Kind::Both => r[..2].to_vec(),
            Kind::Width => vec![r[0]],
            Kind::Height => vec![r[1]],
            Kind::LayOut => r[2..].to_vec(),
        }
    }
}

fn number(word: u32) -> String {
    let v = float(word) as f64 * 8.0;
    let fits = v.is_finite() && v.fract() == 0.0 && v.abs() <= LIMIT as f64;
    format!("{:>8}", if fits { (v as i64).to_string() } else { "*".into() })
}
fn refused(n: u32) -> String {
    format!(" refused{n:>8}\n")
}

/// What `boxlist` prints, and by whom that is; a refusal is by none
pub fn list(text: &[u8]) -> (String, Option<By>) {
    let Some(screen) = parse(text) else { return (refused(8), None) };
    match answer(&screen.case, || Items(&screen.replies)) {
        Ok((transcript, by)) => (listed(&transcript), Some(by)),
        Err(number) => (refused(number), None),
    }
}
/// The published Rust's list, also where request #106 doesn't compare with the Rust
pub fn list_by_rust(text: &[u8]) -> String {
    let Some(screen) = parse(text) else { return refused(8) };
    run(&screen.case, &mut Items(&screen.replies)).map_or_else(refused, |transcript| listed(&transcript))
}
fn listed(t: &Transcript) -> String {
    let head = ["node", "x", "y", "width", "height", "left", "right", "top", "bottom"];
    let mut out = head.map(|h| format!("{h:>8}")).concat() + "\n";
    for &node in &t.hoisted {
        let l = t.layouts[node as usize].unwrap();
        out += &format!("{node:>8}");
        out += &[9, 10, 1, 2, 19, 20, 21, 22].map(|i| number(l[i])).concat();
        out += "\n";
    }
    out + "overflow" + &t.overflow.map(number).concat() + "\n"
}

/// A second value of some length, or the length as a sum. Now and then a tag beside a sum's, or a second value that is too large.
fn with_second(tag: i64, value: i64, sums: &mut Random) -> [i64; LENGTH] {
    let signed = |sums: &mut Random, top: u32| sums.draw(2 * top + 1) as i64 - top as i64;
    if sums.draw(8) == 0 {
        // most often a factor whose sums are whole eighths
        let factor = [8, 8, -8, 16, 0, 4, 4, signed(sums, 12)][sums.draw(8) as usize];
        return [SUM as i64, factor, signed(sums, 800)];
    }
    let any = LIMIT * signed(sums, 32767) / 32767;
    match sums.draw(6000) {
        0..6 => [[4, 6, 128, 130, 385][sums.draw(5) as usize], value, any],
        6 => [tag, value, LIMIT + 1],
        _ => [tag, value, any],
    }
}

/// Puts the items with a size keyword on the set where they are compared with the Rust, as `gen::steer` does to a case: `rows` are the
/// screen's lines as far as the items go
fn steer(rows: &mut [Vec<i64>], seed: u64, number: u64) {
    let word = |is_float: bool, v: i64| if is_float { (v as f32 / 8.0).to_bits() } else { v as u32 };
    let area = std::array::from_fn(|i| word(i < 4, rows[0][i]));
    let styles = rows[1..].iter().map(|row| std::array::from_fn(|i| word(style_float(i), row[i]))).collect();
    let mut case = Case { name: String::new(), area, styles, candidates: vec![] };
    let before = case.clone();
    gen::steer(&mut case, seed, number);
    let back = |is_float: bool, w: u32| if is_float { (float(w) * 8.0) as i64 } else { w as i64 };
    for i in (0..4).filter(|&i| case.area[i] != before.area[i]) {
        rows[0][i] = back(true, case.area[i]);
    }
    for (row, (style, before)) in rows[1..].iter_mut().zip(case.styles.iter().zip(&before.styles)) {
        for i in (0..STYLE).filter(|&i| style[i] != before[i]) {
            row[i] = back(style_float(i), style[i]);
        }
    }
}

/// A random screen; about one in three is damaged. Sums and second values come from `sums`, so that no other word depends on them; what
/// puts items on the set comes from the seed and the screen's number.
pub fn random(r: &mut Random, sums: &mut Random, seed: u64, number: u64) -> Vec<u8> {
    let (n, m) = (r.draw(4) as i64, r.draw(6) as i64);
    let n = if r.draw(12) == 0 { r.draw(128) as i64 + 1 } else { n };
    let mut rows: Vec<Vec<i64>> = vec![];
    let flip =
        |r: &mut Random, one_in: u32, good: i64| if r.draw(one_in) == 0 { r.draw(7) as i64 * 40 - 3 } else { good };
    let size = |r: &mut Random, top: u32| r.draw(top) as i64;
    let signed = |r: &mut Random, top: u32| r.draw(2 * top + 1) as i64 - top as i64;
    let mut head = vec![size(r, 8000) + 1, size(r, 8000), signed(r, 400), signed(r, 400)];
    head.extend([r.draw(2) as i64, [3, 3, 1, 2, 0][r.draw(5) as usize], r.draw(4) as i64, r.draw(4) as i64, n, m]);
    rows.push(head);
    for _ in 0..n {
        let mut f = vec![];
        for i in 0..LENGTHS {
            let tags: &[i64] = if i < 8 {
                &[1, 1, 3, 3, 5]
            } else if i < 16 {
                &[1, 1, 1, 5]
            } else {
                &[1, 1, 3, 3, 5, 11, 15, 27, 35, 43, 59, 75]
            };
            let tag = tags[r.draw(tags.len() as u32) as usize];
            let value = if tag == 5 || tag == 15 {
                size(r, 12)
            } else if i < 8 {
                signed(r, 2000)
            } else {
                size(r, if i < 16 { 80 } else { 6000 })
            };
            f.extend(with_second(flip(r, 900, tag), value, sums));
        }
        let ratio = (r.draw(5) == 0) as i64;
        let codes = [
            ratio,
            size(r, 24),
            r.draw(2) as i64,
            r.draw(4) as i64,
            r.draw(2) as i64,
            r.draw(11) as i64,
            r.draw(3) as i64,
            r.draw(11) as i64,
            r.draw(3) as i64,
            r.draw(4) as i64,
            r.draw(4) as i64,
            size(r, 160),
            r.draw(256) as i64,
        ];
        for (i, c) in codes.into_iter().enumerate() {
            let bad_ok = i != 1 && i != 11;
            f.push(if bad_ok { flip(r, 900, c) } else { c });
        }
        f.extend([size(r, 4000), size(r, 2000), -size(r, 200), size(r, 5000), -size(r, 200), size(r, 3000)]);
        rows.push(f);
    }
    steer(&mut rows, seed, number);
    for _ in 0..m {
        let node = if n == 0 { 0 } else { r.draw(n as u32) as i64 };
        let position = [2, 2, 2, 3, 3, 0, 1, 4][r.draw(8) as usize];
        let mut f = vec![flip(r, 200, node), r.draw(9) as i64, flip(r, 200, position)];
        for _ in 0..2 {
            let a = signed(r, 4000);
            f.extend([a, a + if r.draw(2) == 0 { 0 } else { size(r, 2000) }]);
            for _ in 0..3 {
                let c = r.draw(3) as i64;
                f.push(flip(r, 300, c));
            }
        }
        let layer = [0, 0, 1, 7, 255, r.draw(256) as i64][r.draw(6) as usize];
        let wrong = [256, 300, 4_294_967_295, 4_294_967_296, -1][r.draw(5) as usize];
        f.push(if r.draw(150) == 0 { wrong } else { layer });
        rows.push(f);
    }
    let mut text = vec![];
    for row in &rows {
        for v in row {
            let s = match r.draw(60) {
                0 if *v >= 0 => format!("+{v}"),
                1 if *v >= 0 => format!("{v:03}"),
                _ => v.to_string(),
            };
            text.extend(format!("{s:>11}").bytes());
        }
        text.push(b'\n');
    }
    // damage
    if r.draw(4) == 0 && !text.is_empty() {
        let at = r.draw(text.len().min(65535) as u32) as usize;
        match r.draw(8) {
            0 => drop(text.remove(at)),
            1 => text.insert(at, b' '),
            2 => text[at] = b"x-+ 9\n\t\r"[r.draw(8) as usize],
            3 => drop(text.pop()),
            4 => text.extend(b"\n"),
            5 => text.truncate(at),
            6 => text.extend_from_slice(b"          0\n"),
            _ => text[at] = [b'9', 0, 255][r.draw(3) as usize],
        }
    }
    text
}
