//! One page for the course: the pack, its picture, why each node runs the way it does, kinds, leans and tables.

use crate::accepted::Accepted;
use crate::answers::{TABLES, leans_rows, tables_rows};
use crate::args::{Args, Done};
use crate::chains::whose;
use crate::commands::{counts, given};
use crate::graph::{escaped, picture};
use crate::held::{Findings, facts, find};
use crate::pack::Relation;
use crate::trouble::Outcome;
use crate::why::{Becomes, Reason};
use crate::{say, tell};
use std::fmt::Write;

pub fn run(args: &Args) -> Outcome<Done> {
    let accepted = given(args)?;
    let facts = facts(&accepted)?;
    let found = find(&accepted, &facts)?;
    Ok(Done { out: page(&accepted, &found)?.into_bytes(), beside: String::new(), code: 0 })
}

fn page(accepted: &Accepted, found: &Findings) -> Outcome<String> {
    let title = escaped(&accepted.input.file);
    let mut out = format!(
        "<!DOCTYPE html>\n<html xmlns=\"http://www.w3.org/1999/xhtml\" lang=\"en\">\n<head>\n<meta charset=\"utf-8\"/>\n\
         <title>{title}</title>\n<style>\n{STYLE}</style>\n</head>\n<body>\n<h1>{title}</h1>\n"
    );
    summary(&mut out, accepted, found);
    section(&mut out, "The relations", "Each box is a relation, with its kinds and the nodes that run over it.");
    _ = writeln!(out, "<figure>{}</figure>", picture(accepted, found));
    section(&mut out, "Why each node runs the way it does", KEY);
    why_table(&mut out, accepted, found);
    section(&mut out, "The page", "Each relation with its slots and kinds, in record order, and whose kinds they are.");
    page_table(&mut out, accepted, found);
    section(&mut out, "Leans", "Which relations lean on which names, by sources and by the steps of paths.");
    table(&mut out, &["relation", "", "on"], &leans_rows(accepted)?);
    section(&mut out, "Entities", "What each entity that derivations name stands for.");
    table(&mut out, &TABLES, &tables_rows(accepted, found.facts, false));
    section(&mut out, "The pack", "As text, with the line numbers that are used above.");
    listing(&mut out, &accepted.text);
    out.push_str("</body>\n</html>\n");
    Ok(out)
}

const KEY: &str = "<b>turned</b>: set another way than it was written. <b>as written</b>: set, and written so. <b>KEPT</b>: nothing \
                   tells which way it runs, and what was written stays. <b>REFUSED</b>: the direction is open, or what is asked for \
                   is not there.";

const STYLE: &str = "\
@page { size: A4 landscape; margin: 14mm; }
body { font: 14px/1.45 'DejaVu Sans', Verdana, sans-serif; color: #111; background: #fff; max-width: 1200px; margin: 2em auto; padding: 0 1em; }
h1 { font-size: 22px; margin: 0 0 .3em; overflow-wrap: anywhere; }
h2 { font-size: 17px; margin: 1.6em 0 .2em; border-bottom: 1px solid #888; break-after: avoid; }
h2 + p { break-after: avoid; }
p { margin: .3em 0 .6em; }
table { border-collapse: collapse; width: 100%; }
th, td { text-align: left; vertical-align: top; padding: .25em .6em; border-bottom: 1px solid #ccc; overflow-wrap: anywhere; }
th { border-bottom: 2px solid #444; }
th, td.short { white-space: nowrap; }
tr { break-inside: avoid; }
thead { display: table-header-group; }
td.code, pre { font-family: 'DejaVu Sans Mono', Menlo, Consolas, monospace; font-size: 12px; }
tr.kept td { background: #fef3c7; }
tr.refused td, .refusal { background: #fee2e2; }
.refusal { padding: .6em; border: 1px solid #b91c1c; }
figure { margin: .5em 0; overflow-x: auto; }
figure svg { max-width: 100%; height: auto; }
pre { margin: 0; white-space: pre-wrap; overflow-wrap: anywhere; }
pre .n { display: inline-block; width: 3.5em; color: #666; user-select: none; }
@media print { body { margin: 0; max-width: none; padding: 0; } figure svg { max-height: 170mm; width: auto; } * { print-color-adjust: exact; -webkit-print-color-adjust: exact; } }
";

fn section(out: &mut String, title: &str, about: &str) {
    _ = writeln!(out, "<h2>{title}</h2>\n<p>{about}</p>");
}

/// What Resolve made of the pack.
fn summary(out: &mut String, accepted: &Accepted, found: &Findings) {
    _ = writeln!(out, "<p>{}.</p>", counts(accepted));
    let resolved = match &found.resolved {
        Ok(resolved) => resolved,
        Err(refusal) => {
            let said = escaped(&say::unresolved(accepted, found.facts, *refusal));
            _ = writeln!(out, "<pre class=\"refusal\">{said}</pre>");
            return;
        }
    };
    let changes = tell::changes(accepted, found);
    if changes.is_empty() {
        out.push_str("<p>It resolves, and nothing had to be changed.</p>\n");
        return;
    }
    _ = writeln!(out, "<p>It resolves, to {} words:</p>\n<ul>", resolved.words.len());
    for change in changes {
        _ = writeln!(out, "<li>{}</li>", escaped(&change));
    }
    out.push_str("</ul>\n");
}

fn why_table(out: &mut String, accepted: &Accepted, found: &Findings) {
    if found.reasons.is_empty() {
        out.push_str("<p>No node of this pack has slots.</p>\n");
        return;
    }
    out.push_str("<table>\n<thead><tr><th>line</th><th>in</th><th>node</th><th>runs</th><th>because</th></tr></thead>\n<tbody>\n");
    for reason in &found.reasons {
        let class = match reason.becomes() {
            Becomes::Kept => " class=\"kept\"",
            Becomes::Refused => " class=\"refused\"",
            _ => "",
        };
        let cells = why_cells(accepted, found, reason);
        let classes = [" class=\"short\"", "", " class=\"code\"", " class=\"short\"", ""];
        let cell = |(class, text): (&str, &String)| format!("<td{class}>{}</td>", escaped(text));
        _ = writeln!(out, "<tr{class}>{}</tr>", classes.into_iter().zip(&cells).map(cell).collect::<String>());
    }
    out.push_str("</tbody>\n</table>\n");
}

fn why_cells(accepted: &Accepted, found: &Findings, reason: &Reason) -> [String; 5] {
    [
        accepted.line(reason.tree.place).to_string(),
        tell::citing(accepted, reason.citing),
        tell::node(accepted, reason),
        tell::becomes(reason).to_string(),
        tell::because(accepted, found.facts, reason),
    ]
}

/// Slots and kinds of each relation; a dash where there is none.
fn page_table(out: &mut String, accepted: &Accepted, found: &Findings) {
    let row = |relation: &Relation| {
        let slots =
            relation.derivation.as_ref().map(|d| [d.slots.current, d.slots.related].map(|slot| slot.to_string()));
        let [current, related] = slots.unwrap_or_else(|| ["-".into(), "-".into()]);
        let kinds = found.facts.kinds(relation.name).map_or("-".into(), |kinds| accepted.input.naming.joined(kinds));
        vec![accepted.show(relation.name), current, related, kinds, whose(accepted, found.facts, relation)]
    };
    let rows: Vec<Vec<String>> = accepted.pack.relations.iter().map(row).collect();
    table(out, &["relation", "current slot", "related slot", "kinds", "whose kinds"], &rows);
}

fn table(out: &mut String, heads: &[&str], rows: &[Vec<String>]) {
    if rows.is_empty() {
        out.push_str("<p>None.</p>\n");
        return;
    }
    let heads: String = heads.iter().map(|head| format!("<th>{head}</th>")).collect();
    _ = writeln!(out, "<table>\n<thead><tr>{heads}</tr></thead>\n<tbody>");
    for row in rows {
        let cells: String = row.iter().map(|cell| format!("<td>{}</td>", escaped(cell))).collect();
        _ = writeln!(out, "<tr>{cells}</tr>");
    }
    out.push_str("</tbody>\n</table>\n");
}

fn listing(out: &mut String, text: &str) {
    out.push_str("<pre>");
    for (i, line) in text.lines().enumerate() {
        _ = writeln!(out, "<span class=\"n\">{}</span>{}", i + 1, escaped(line));
    }
    out.push_str("</pre>\n");
}
