//! The pictures of packs: boxes do not meet, texts stay in their boxes, and arrows run around the boxes.
mod cases;

use cogunwa_model::packs::household;
use cogunwa_model::replay::by_chance;
use cogunwa_tool::accepted::accept;
use cogunwa_tool::graph::{escaped, picture};
use cogunwa_tool::held::{facts, find};
use cogunwa_tool::input::from_bytes;

#[derive(Clone, Copy, Debug)]
struct Rect {
    x: f64,
    y: f64,
    width: f64,
    height: f64,
}

/// Where a text begins, and how many letters it has.
type Text = (f64, f64, usize);

/// The boxes, each with its texts, and the arrows as the points they run through.
struct Picture {
    boxes: Vec<(Rect, Vec<Text>)>,
    arrows: Vec<Vec<(f64, f64)>>,
}

fn number(line: &str, name: &str) -> f64 {
    let rest = line.split_once(&format!(" {name}=\"")).unwrap_or_else(|| panic!("{name} in {line}")).1;
    rest.split_once('"').unwrap().0.parse().unwrap()
}

fn plain(text: &str) -> String {
    [("&lt;", "<"), ("&gt;", ">"), ("&quot;", "\""), ("&amp;", "&")]
        .iter()
        .fold(text.to_string(), |t, (a, b)| t.replace(a, b))
}

fn read_picture(svg: &str) -> Picture {
    let mut picture = Picture { boxes: vec![], arrows: vec![] };
    let mut begins = false;
    for line in svg.lines().take_while(|line| !line.starts_with("<g transform")) {
        if line.starts_with("<g><title>") {
            begins = true;
        } else if line.starts_with("<rect") && begins {
            let rect = Rect {
                x: number(line, "x"),
                y: number(line, "y"),
                width: number(line, "width"),
                height: number(line, "height"),
            };
            picture.boxes.push((rect, vec![]));
            begins = false;
        } else if line.starts_with("<text") {
            let text = plain(line.split_once('>').unwrap().1.trim_end_matches("</text>"));
            let text = (number(line, "x"), number(line, "y"), text.chars().count());
            picture.boxes.last_mut().unwrap().1.push(text);
        } else if let Some(points) = line.strip_prefix("<path d=\"M").filter(|_| line.contains("fill=\"none\"")) {
            let points = points.split_once('"').unwrap().0.split('L');
            let point = |p: &str| p.split_once(' ').map(|(x, y)| (x.parse().unwrap(), y.parse().unwrap())).unwrap();
            picture.arrows.push(points.map(point).collect());
        }
    }
    picture
}

fn meet(a: Rect, b: Rect) -> bool {
    let apart = a.x + a.width <= b.x || b.x + b.width <= a.x || a.y + a.height <= b.y || b.y + b.height <= a.y;
    !apart
}

fn look(name: &str, words: &[u32]) -> (usize, usize) {
    let Ok(accepted) = accept(from_bytes("pack", cogunwa::bytes_of(words))) else { return (0, 0) };
    let facts = facts(&accepted).unwrap();
    let svg = picture(&accepted, &find(&accepted, &facts).unwrap());
    let Picture { boxes, arrows } = read_picture(&svg);
    for (i, (a, texts)) in boxes.iter().enumerate() {
        assert!(boxes[i + 1..].iter().all(|(b, _)| !meet(*a, *b)), "{name}: boxes meet");
        for &(x, y, letters) in texts {
            let inside = a.x < x && x + 7.25 * letters as f64 <= a.x + a.width && a.y < y && y <= a.y + a.height;
            assert!(inside, "{name}: a text of {letters} letters at {x} {y} leaves {a:?}");
        }
    }
    for arrow in &arrows {
        for pair in arrow.windows(2) {
            let [(x, y), (to_x, to_y)] = [pair[0], pair[1]];
            let line = Rect { x: x.min(to_x), y: y.min(to_y), width: (x - to_x).abs(), height: (y - to_y).abs() };
            assert!(line.width < 0.1 || line.height < 0.1, "{name}: an arrow runs aslant");
            let inner = |b: &Rect| Rect { x: b.x + 0.5, y: b.y + 0.5, width: b.width - 1.0, height: b.height - 1.0 };
            assert!(boxes.iter().all(|(b, _)| !meet(line, inner(b))), "{name}: an arrow runs through a box");
        }
    }
    (boxes.len(), arrows.len())
}

#[test]
fn nothing_overlaps() {
    let mut count = (0, 0);
    let mut add = |(boxes, arrows): (usize, usize)| count = (count.0 + boxes, count.1 + arrows);
    add(look("sample", &household()));
    let all = by_chance(2220, 600, &cases::FORMS, |words, _| add(look("a pack by chance", words)));
    assert!(!all || count.0 > 5000 && count.1 > 3000, "{count:?}");
}

#[test]
fn texts_stand_in_xml() {
    assert_eq!(escaped("a<b> & \"c\"\u{1}\u{FFFF}\n"), "a&lt;b&gt; &amp; &quot;c&quot;\u{FFFD}\u{FFFD}\n");
}
