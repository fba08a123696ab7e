//! A pack as text, in one layout. Comments, the legend and the header of a text that it came from are kept.

use crate::lex::Comment;
use crate::make::Made;
use crate::names::Naming;
use crate::nodes;
use crate::pack::*;
use crate::parse::{Legend, Says};

const WIDTH: usize = 100;

/// The text of a pack; `made` is the text that it was made from, if there is one.
pub fn layout(pack: &Pack, naming: &Naming, made: Option<&Made>) -> String {
    let comments = made.map_or(&[][..], |made| &made.text.comments);
    let mut printer = Printer { naming, made, comments, next: 0, out: String::new() };
    printer.line(0, "pack", (0, 1));
    printer.header(pack);
    for relation in &pack.relations {
        printer.relation(relation);
    }
    for rule in &pack.rules {
        printer.rule(rule);
    }
    for block in &pack.blocks {
        printer.block(block);
    }
    printer.comments_before(usize::MAX, 0);
    printer.out
}

pub fn slots_text(slots: Slots) -> String {
    format!("{}->{}", slots.current, slots.related)
}

struct Printer<'a> {
    naming: &'a Naming,
    made: Option<&'a Made>,
    comments: &'a [Comment],
    /// The first comment that is not written yet.
    next: usize,
    out: String,
}

/// Where a tree stands: how far in, what is written before it on its line and behind it, and the tokens of both.
struct Spot<'a> {
    indent: usize,
    before: &'a str,
    start: usize,
    after: &'a str,
    more: usize,
}

impl Printer<'_> {
    // ---- lines and comments

    fn blank(&mut self) {
        if !self.out.is_empty() && !self.out.ends_with("\n\n") {
            self.out.push('\n');
        }
    }

    fn indented(&mut self, indent: usize, text: &str) {
        self.out.extend(std::iter::repeat_n(' ', indent));
        self.out.push_str(text);
    }

    /// Writes the comments before a token, each on a line of its own.
    fn comments_before(&mut self, token: usize, indent: usize) {
        while let Some(comment) = self.comments.get(self.next).filter(|c| c.before < token) {
            if comment.blank_above && comment.own_line {
                self.blank();
            }
            self.indented(indent, &format!("#{}\n", comment.text));
            if comment.blank_below {
                self.blank();
            }
            self.next += 1;
        }
    }

    /// A line for these tokens: the comments that stand before it or within it, then itself, then a comment at its end.
    fn line(&mut self, indent: usize, text: &str, tokens: (usize, usize)) {
        self.comments_before(tokens.1, indent);
        self.indented(indent, text);
        let mut gap = "  ";
        while let Some(comment) = self.comments.get(self.next).filter(|c| !c.own_line && c.before <= tokens.1) {
            self.out.push_str(&format!("{gap}#{}", comment.text));
            gap = " ";
            self.next += 1;
        }
        self.out.push('\n');
    }

    fn range(&self, place: usize) -> (usize, usize) {
        self.made.and_then(|made| made.text.ranges.get(&place)).copied().unwrap_or((0, 0))
    }

    fn name(&self, name: u32) -> String {
        self.naming.show(name)
    }

    /// A number that stands for something, as the text had it.
    fn opaque(&self, place: usize, value: u32) -> String {
        match self.used(place) {
            Some((word, Legend::Number(number))) if number == value => word.to_string(),
            _ => value.to_string(),
        }
    }

    fn used(&self, place: usize) -> Option<(&str, Legend)> {
        let text = &self.made?.text;
        let word = text.uses.get(&place)?;
        Some((word, *text.legend.get(word)?))
    }

    // ---- the header

    fn header(&mut self, pack: &Pack) {
        if let Some(made) = self.made {
            for statement in &made.text.header {
                let names = |ids: &[usize]| ids.iter().map(|&id| self.name(made.numbers[id])).collect::<Vec<_>>();
                let text = match &statement.says {
                    Says::Let(word, Legend::Number(number)) => format!("let {word} = {number}"),
                    Says::Let(word, Legend::Node(kind, value)) => {
                        format!("let {word} = {} {value}", nodes::word_of(*kind))
                    }
                    Says::Unused(ids) => wrapped("unused", &names(ids)),
                    Says::Defaulted(ids) => wrapped("defaulted", &names(ids)),
                };
                self.line(0, &text, statement.tokens);
            }
            return;
        }
        let unused = unused(pack, self.naming);
        if !unused.is_empty() {
            let names: Vec<String> = unused.into_iter().map(|name| self.name(name)).collect();
            self.line(0, &wrapped("unused", &names), (0, 0));
        }
        for &name in &pack.defaulted {
            self.line(0, &format!("defaulted {}", self.name(name)), (0, 0));
        }
    }

    // ---- records

    fn origin(&self, name: u32, origin: Option<u32>) -> String {
        if self.naming.is_usual(name, origin) {
            return String::new();
        }
        format!(" origin {}", self.naming.show_or_none(origin))
    }

    fn relation(&mut self, relation: &Relation) {
        let usual = if relation.kinds.names.is_empty() { 2 } else { relation.kinds.names.len() as u32 };
        let arity = if relation.arity == usual { String::new() } else { format!(" arity {}", relation.arity) };
        let (name, origin) = (self.name(relation.name), self.origin(relation.name, relation.origin));
        let kinds = self.naming.list(&relation.kinds.names);
        self.blank();
        self.line(0, &format!("relation {name}{origin}{arity} {kinds}"), self.range(relation.place));
        if let Some(derivation) = &relation.derivation {
            self.derivation(derivation);
        }
    }

    fn derivation(&mut self, d: &Derivation) {
        self.line(2, &format!("from {}", self.naming.show_or_none(d.source)), self.range(d.place));
        if let Some(path) = &d.path {
            let step = |step: &Step| format!("{} {}", self.name(step.relation), slots_text(step.slots));
            let steps = path.iter().map(step).collect::<Vec<_>>().join(", ");
            self.line(2, &format!("path ({steps})"), self.range(d.path_place()));
        }
        let slots = d.slots_place();
        self.line(2, &format!("slots {}", slots_text(d.slots)), self.range(slots));
        if let Some(entity) = d.entity {
            self.line(2, &format!("entity {}", self.name(entity)), self.range(slots + 2));
        }
        if let Some(member) = d.member {
            self.line(2, &format!("member {}", self.name(member)), self.range(slots + 3));
        }
        if !d.kinds.names.is_empty() {
            self.line(2, &format!("kinds {}", self.naming.list(&d.kinds.names)), self.range(d.kinds.place));
        }
        let start = self.range(d.predicate.place).0.saturating_sub(1);
        self.tree(&d.predicate, Spot { indent: 2, before: "where ", start, after: "", more: 0 });
    }

    fn rule(&mut self, rule: &Rule) {
        let (name, origin) = (self.name(rule.name), self.origin(rule.name, rule.origin));
        self.blank();
        self.line(0, &format!("rule {name}{origin} for {}", self.name(rule.entity)), self.range(rule.place));
        for body in &rule.bodies {
            let before = if body.judgment { "judgment " } else { "scalar " };
            let start = self.range(body.place).0;
            self.tree(&body.tree, Spot { indent: 2, before, start, after: "", more: 0 });
        }
    }

    fn block(&mut self, block: &Block) {
        let none = if block.items.is_none() { " no sequence" } else { "" };
        self.blank();
        let text = format!("inputs {}{none}", self.naming.show_or_none(block.origin));
        self.line(0, &text, self.range(block.place));
        for item in block.items.iter().flatten() {
            let entity = item.entity.map_or(String::new(), |entity| format!(" of {}", self.name(entity)));
            let boolean = if item.boolean { " boolean" } else { "" };
            let text = format!("item {}{entity}{boolean}", self.naming.show_or_none(item.name));
            self.line(2, &text, self.range(item.place));
        }
    }

    // ---- trees

    /// What stands before a node's children in parentheses.
    fn head(&self, tree: &Tree) -> String {
        let word = nodes::word_of(tree.kind);
        let slots = tree.slots.map_or(String::new(), |slots| format!(" {}", slots_text(slots)));
        let of = match tree.opaque {
            0 => String::new(),
            value => format!(" of {}", self.opaque(tree.opaque_place(), value)),
        };
        match tree.kind {
            kind if nodes::opaque_value(kind) => match self.used(tree.place) {
                Some((word, Legend::Node(k, v))) if (k, v) == (kind, tree.value) => word.to_string(),
                _ => format!("{word} {}", self.opaque(tree.place, tree.value)),
            },
            65 | 105 | nodes::COUNT..=nodes::ONLY | nodes::MEMBER..=nodes::EXISTS => {
                let asked = tree.asks.map_or(String::new(), |asked| {
                    format!(" {} {}", if asked.derived { "derived" } else { "input" }, self.name(asked.name))
                });
                format!("{word} {}{slots}{of}{asked}", self.name(tree.value))
            }
            nodes::PERIODS => format!("periods {}", tree.value),
            _ => word.to_string(),
        }
    }

    /// Whether the children of a node stand in parentheses behind its head, also if there are none.
    fn in_parentheses(tree: &Tree) -> bool {
        matches!(tree.kind, 68..=70 | 97..=99)
            || !tree.children.is_empty()
                && !matches!(tree.kind, nodes::IF..=nodes::NO_MATCH | nodes::COUNT..=nodes::SINGLE)
    }

    fn flat(&self, tree: &Tree) -> String {
        let all = |trees: &[Tree]| trees.iter().map(|child| self.flat(child)).collect::<Vec<_>>();
        let head = self.head(tree);
        let children = all(&tree.children);
        match (tree.kind, &children[..]) {
            (nodes::IF, [test, then, other]) => format!("if {test} then {then} else {other}"),
            (nodes::NO_MATCH, [subject, patterns @ ..]) => format!("nomatch {subject} in ({})", patterns.join(", ")),
            (nodes::COUNT..=nodes::SINGLE, [test]) => format!("{head} where {test}"),
            _ if Self::in_parentheses(tree) => format!("{head} ({})", children.join(", ")),
            _ => head,
        }
    }

    /// Whether a comment stands before one of these tokens.
    fn commented(&self, start: usize, end: usize) -> bool {
        self.comments[self.next..].iter().any(|c| start <= c.before && c.before < end)
    }

    /// Whether a comment stays within a tree that is written on several lines. One that stands in the part before the
    /// first child goes above that line.
    fn holds_comment(&self, tree: &Tree) -> bool {
        let Some(first) = tree.children.first() else { return false };
        let end = self.range(tree.place).1;
        let (child, child_end) = self.range(first.place);
        match tree.kind {
            nodes::IF => self.holds_comment(first) || self.commented(child_end, end),
            nodes::NO_MATCH if tree.children.len() == 1 => self.holds_comment(first),
            nodes::NO_MATCH => self.holds_comment(first) || self.commented(child_end + 2, end),
            nodes::COUNT..=nodes::SINGLE => self.commented(child.saturating_sub(1), end),
            _ => self.commented(child, end),
        }
    }

    /// A tree on one line if it fits there and no comment stands within it; otherwise its children on lines of their own.
    fn tree(&mut self, tree: &Tree, spot: Spot) {
        let end = self.range(tree.place).1;
        let flat = format!("{}{}{}", spot.before, self.flat(tree), spot.after);
        let fits = spot.indent + flat.chars().count() <= WIDTH;
        if tree.children.is_empty() || fits && !self.holds_comment(tree) {
            return self.line(spot.indent, &flat, (spot.start, end + spot.more));
        }
        match tree.kind {
            nodes::IF => self.broken_condition(tree, spot),
            nodes::NO_MATCH => self.broken_match(tree, spot),
            nodes::COUNT..=nodes::SINGLE => {
                let first = self.range(tree.children[0].place).0.saturating_sub(1);
                self.line(spot.indent, &format!("{}{}", spot.before, self.head(tree)), (spot.start, first));
                self.tree(&tree.children[0], Spot { indent: spot.indent + 2, before: "where ", start: first, ..spot });
            }
            _ => {
                let first = self.range(tree.children[0].place).0;
                self.line(spot.indent, &format!("{}{} (", spot.before, self.head(tree)), (spot.start, first));
                self.closed(&tree.children, end, spot);
            }
        }
    }

    /// Children on lines of their own, and the line that closes them.
    fn closed(&mut self, children: &[Tree], end: usize, spot: Spot) {
        for (i, child) in children.iter().enumerate() {
            let (after, more) = if i + 1 < children.len() { (",", 1) } else { ("", 0) };
            let start = self.range(child.place).0;
            self.tree(child, Spot { indent: spot.indent + 2, before: "", start, after, more });
        }
        self.line(spot.indent, &format!("){}", spot.after), (end.saturating_sub(1), end + spot.more));
    }

    fn broken_condition(&mut self, tree: &Tree, spot: Spot) {
        let [test, then, other] = &tree.children[..] else { return };
        let before = format!("{}if ", spot.before);
        self.tree(test, Spot { indent: spot.indent, before: &before, start: spot.start, after: "", more: 0 });
        let start = self.range(then.place).0.saturating_sub(1);
        self.tree(then, Spot { indent: spot.indent + 2, before: "then ", start, after: "", more: 0 });
        let start = self.range(other.place).0.saturating_sub(1);
        self.tree(other, Spot { indent: spot.indent + 2, before: "else ", start, ..spot });
    }

    fn broken_match(&mut self, tree: &Tree, spot: Spot) {
        let Some((subject, patterns)) = tree.children.split_first() else { return };
        let before = format!("{}nomatch ", spot.before);
        if patterns.is_empty() {
            let after = format!(" in (){}", spot.after);
            return self.tree(subject, Spot { before: &before, after: &after, more: spot.more + 3, ..spot });
        }
        let end = self.range(tree.place).1;
        self.tree(subject, Spot { indent: spot.indent, before: &before, start: spot.start, after: " in (", more: 2 });
        self.closed(patterns, end, spot);
    }
}

/// A statement with names behind it, on as many lines as they need.
fn wrapped(head: &str, names: &[String]) -> String {
    let mut out = head.to_string();
    let mut width = head.len();
    for (i, name) in names.iter().enumerate() {
        let comma = if i + 1 < names.len() { "," } else { "" };
        let length = name.chars().count() + comma.len();
        if i > 0 && width + 1 + length > WIDTH {
            out.push_str("\n ");
            width = 1;
        }
        out.push_str(&format!(" {name}{comma}"));
        width += 1 + length;
    }
    out
}

/// The names that a text must declare because no word of the pack holds them.
fn unused(pack: &Pack, naming: &Naming) -> Vec<u32> {
    let used = pack.used();
    let is_unused = |name: &u32| !used.contains(name);
    match naming {
        Naming::Texts(_) => (1..pack.names).filter(is_unused).collect(),
        Naming::Numbers => (1..pack.names).next_back().filter(is_unused).into_iter().collect(),
    }
}
