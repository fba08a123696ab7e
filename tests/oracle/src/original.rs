//! What the original answers: a pack's records, with the texts of its names, go over to the original's program, and its
//! result comes back as records.
//!
//! Names are texts in byte order. Opaque words choose among the original's forms that have the same children, and come
//! back from the pack where the form is the one that they chose.

use crate::model::{JudgmentExpr, Program, RelationDerivation, RelationPathStep, RelationSchema};
use crate::relation_direction::{self, DirectionError};
use crate::relation_typing::{self, ChainStep};
use crate::spec::{
    ComparisonOpSpec, DTypeSpec, DerivedSemanticsSpec, DerivedSpec, DerivedVersionSpec, ExtremeSpec, JudgmentExprSpec,
    OverPeriodsKindSpec, ProgramSpec, RelatedValueRefSpec, RelationDerivationSpec, RelationPathStepSpec, RelationSpec,
    ScalarExprSpec, ScalarValueSpec, TermSpec,
};
use chrono::NaiveDate;
use cogunwa_model::records::{Block, Derivation, Item, NONE, Pack, Relation, Rule, Tree};
use serde_yaml::{Mapping, Value};
use std::collections::{BTreeMap, HashMap, HashSet};
use std::mem::discriminant;

/// What `resolve` of the original takes.
#[derive(Clone)]
pub struct Input {
    pub spec: ProgramSpec,
    pub defaulted: HashSet<String>,
    pub inputs: Value,
    pub origin: Option<String>,
    pub imported: Vec<(Option<String>, Value)>,
}

impl Input {
    pub fn resolve(&mut self) -> Result<(), DirectionError> {
        relation_direction::resolve(
            &mut self.spec,
            &self.defaulted,
            &self.inputs,
            self.origin.as_deref(),
            &self.imported,
        )
    }
}

/// A refusal without its place, which the original does not give.
#[derive(Clone, Copy, Debug, PartialEq)]
pub struct Refused {
    pub number: u32,
    pub name: u32,
    pub other: u32,
}

/// The original's tables; each has an entry for every name.
pub struct Tables {
    pub kinds: Vec<Option<Vec<u32>>>,
    pub steps: u32,
    pub direct: Vec<u32>,
    pub innermost: Vec<u32>,
    pub alias: Vec<u32>,
    pub unresolved: Vec<u32>,
}

pub struct Texts<'t> {
    texts: &'t [String],
    numbers: HashMap<&'t str, u32>,
}

fn term(v: u32) -> TermSpec {
    [TermSpec::Anchor, TermSpec::Candidate, TermSpec::Var((v / 3) as usize)][v as usize % 3]
}

fn leaf(v: u32) -> ScalarExprSpec {
    let name = v.to_string();
    let literal = ScalarValueSpec::Integer { value: v.into() };
    match v % 8 {
        0 => ScalarExprSpec::Literal { value: literal },
        1 => ScalarExprSpec::Input { name },
        2 => ScalarExprSpec::InputForYear { input: name, year: v as i32 },
        3 => ScalarExprSpec::InputOrElse { name, default: literal },
        4 => ScalarExprSpec::RoleInput { term: term(v / 8), name },
        5 => ScalarExprSpec::RoleDerived { term: term(v / 8), name },
        6 => ScalarExprSpec::PeriodStart,
        _ => ScalarExprSpec::PeriodEnd,
    }
}

fn one_child(v: u32, child: ScalarExprSpec) -> ScalarExprSpec {
    let child = Box::new(child);
    match v % 4 {
        0 => ScalarExprSpec::Ceil { value: child },
        1 => ScalarExprSpec::Floor { value: child },
        2 => ScalarExprSpec::CalendarYearsToMonths { years: child },
        _ => ScalarExprSpec::ParameterLookup { parameter: v.to_string(), index: child },
    }
}

fn two_children(v: u32, a: ScalarExprSpec, b: ScalarExprSpec) -> ScalarExprSpec {
    let (a, b) = (Box::new(a), Box::new(b));
    match v % 7 {
        0 => ScalarExprSpec::Sub { left: a, right: b },
        1 => ScalarExprSpec::Mul { left: a, right: b },
        2 => ScalarExprSpec::Div { left: a, right: b },
        3 => ScalarExprSpec::DateAddDays { date: a, days: b },
        4 => ScalarExprSpec::DateAddMonths { date: a, months: b },
        5 => ScalarExprSpec::DateAddYears { date: a, years: b },
        _ => ScalarExprSpec::DaysBetween { from: a, to: b },
    }
}

fn related_value(v: u32) -> RelatedValueRefSpec {
    let name = v.to_string();
    if v % 2 == 0 { RelatedValueRefSpec::Input { name } } else { RelatedValueRefSpec::Derived { name } }
}

fn comparison(v: u32) -> ComparisonOpSpec {
    use ComparisonOpSpec::*;
    [Lt, Lte, Gt, Gte, Eq, Ne][v as usize % 6]
}

const OVER: [OverPeriodsKindSpec; 4] =
    [OverPeriodsKindSpec::Sum, OverPeriodsKindSpec::Max, OverPeriodsKindSpec::Count, OverPeriodsKindSpec::SumTopN];

/// A place-holder, of no meaning, for a tree that is not read.
fn nothing() -> ScalarExprSpec {
    ScalarExprSpec::PeriodStart
}

impl<'t> Texts<'t> {
    pub fn new(texts: &'t [String]) -> Texts<'t> {
        assert!(texts[0].is_empty() && texts.is_sorted());
        let numbers: HashMap<_, _> = texts.iter().zip(0..).map(|(text, i)| (text.as_str(), i)).collect();
        assert_eq!(numbers.len(), texts.len());
        Texts { texts, numbers }
    }

    fn text(&self, name: u32) -> String {
        self.texts[name as usize].clone()
    }

    fn maybe(&self, name: u32) -> Option<String> {
        (name != NONE).then(|| self.text(name))
    }

    fn all(&self, names: &[u32]) -> Vec<String> {
        names.iter().map(|&name| self.text(name)).collect()
    }

    fn number(&self, text: &str) -> u32 {
        self.numbers[text]
    }

    fn maybe_number(&self, text: &Option<String>) -> u32 {
        text.as_ref().map_or(NONE, |text| self.number(text))
    }

    fn numbers(&self, texts: &[String]) -> Vec<u32> {
        texts.iter().map(|text| self.number(text)).collect()
    }

    /// The text before the first '#', or none without one.
    fn origin(&self, name: u32) -> u32 {
        self.texts[name as usize].split_once('#').map_or(NONE, |(origin, _)| self.number(origin))
    }

    // ---- to the original

    pub fn input(&self, pack: &Pack) -> Input {
        assert_eq!(pack.n as usize, self.texts.len());
        let spec = ProgramSpec {
            relations: pack.relations.iter().map(|r| self.relation(r)).collect(),
            derived: pack.rules.iter().enumerate().map(|(i, r)| self.rule(i, r)).collect(),
            ..ProgramSpec::default()
        };
        let mut blocks: Vec<_> =
            pack.blocks.iter().enumerate().map(|(i, b)| (self.maybe(b.origin), self.block(i, b))).collect();
        // Null blocks are not written in a pack; some stand among the original's.
        if pack.blocks.len() % 3 != 1 {
            let at = pack.rules.len() % (blocks.len() + 1);
            let origin = pack.rules.first().map_or(NONE, |r| r.origin);
            blocks.insert(at, (self.maybe(origin), Value::Null));
        }
        let (origin, inputs) = blocks.remove(0);
        Input { spec, defaulted: self.all(&pack.defaulted).into_iter().collect(), inputs, origin, imported: blocks }
    }

    fn relation(&self, r: &Relation) -> RelationSpec {
        assert_eq!(r.origin, self.origin(r.name));
        RelationSpec {
            name: self.text(r.name),
            arity: r.arity as usize,
            slot_entities: self.all(&r.kinds),
            derivation: r.derived.as_ref().map(|d| RelationDerivationSpec {
                source_relation: self.maybe(d.source),
                source_path: d.path.as_ref().map(|steps| {
                    let step = |s: &[u32; 3]| RelationPathStepSpec {
                        relation: self.text(s[0]),
                        from_slot: s[1] as usize,
                        to_slot: s[2] as usize,
                    };
                    steps.iter().map(step).collect()
                }),
                current_slot: d.current_slot as usize,
                related_slot: d.related_slot as usize,
                entity: self.maybe(d.entity),
                member_relation: self.maybe(d.member),
                slot_entities: self.all(&d.kinds),
                predicate: self.judgment(&d.predicate),
            }),
        }
    }

    fn rule(&self, index: usize, r: &Rule) -> DerivedSpec {
        assert_eq!(r.origin, self.origin(r.name));
        let mut bodies = r.bodies.iter().map(|body| self.semantics(body));
        // The citing name is the id, or the name where there is none.
        let (id, name) = match index % 2 {
            0 => (Some(self.text(r.name)), "another name".to_string()),
            _ => (None, self.text(r.name)),
        };
        DerivedSpec {
            id,
            name,
            entity: self.text(r.entity),
            dtype: DTypeSpec::Bool,
            unit: None,
            period: None,
            rounding: None,
            source: None,
            source_url: None,
            corpus_citation_path: None,
            semantics: bodies.next().unwrap(),
            versions: bodies
                .map(|semantics| DerivedVersionSpec { effective_from: NaiveDate::MIN, effective_to: None, semantics })
                .collect(),
        }
    }

    fn block(&self, index: usize, b: &Block) -> Value {
        let Some(items) = &b.items else {
            return [Value::Bool(false), Value::Mapping(Mapping::new()), Value::String("text".into())][index % 3]
                .clone();
        };
        Value::Sequence(items.iter().enumerate().map(|(i, item)| self.item(i, item)).collect())
    }

    fn item(&self, index: usize, item: &Item) -> Value {
        // What has no name may be no mapping at all.
        if item.name == NONE && item.entity == NONE && !item.boolean && index % 2 == 0 {
            return [Value::Null, Value::Sequence(vec![]), Value::String("name".into())][index / 2 % 3].clone();
        }
        let mut map = Mapping::new();
        let mut put = |key: &str, value: Option<Value>| value.map(|value| map.insert(key.into(), value));
        put("name", self.maybe(item.name).map_or((index % 2 == 0).then_some(Value::from(7)), |text| Some(text.into())));
        let dtype = if item.boolean {
            Some(["Boolean", "boolean", "Bool", "bool"][index % 4])
        } else {
            [None, Some("Integer"), Some("BOOL"), Some("")][index % 4]
        };
        put("dtype", dtype.map(Value::from));
        put(
            "entity",
            self.maybe(item.entity).map_or((index % 2 == 0).then_some(Value::Null), |text| Some(text.into())),
        );
        Value::Mapping(map)
    }

    fn semantics(&self, body: &Tree) -> DerivedSemanticsSpec {
        if body.is_scalar() {
            DerivedSemanticsSpec::Scalar { expr: self.scalar(body) }
        } else {
            DerivedSemanticsSpec::Judgment { expr: self.judgment(body) }
        }
    }

    fn scalars(&self, trees: &[Tree]) -> Vec<ScalarExprSpec> {
        trees.iter().map(|tree| self.scalar(tree)).collect()
    }

    fn judgments(&self, trees: &[Tree]) -> Vec<JudgmentExprSpec> {
        trees.iter().map(|tree| self.judgment(tree)).collect()
    }

    fn scalar(&self, t: &Tree) -> ScalarExprSpec {
        let child = |i: usize| Box::new(self.scalar(&t.children[i]));
        match t.kind {
            64 => leaf(t.value),
            65 => ScalarExprSpec::Derived { name: self.text(t.value) },
            66 => one_child(t.value, *child(0)),
            67 => two_children(t.value, *child(0), *child(1)),
            68 => ScalarExprSpec::Add { items: self.scalars(&t.children) },
            69 => ScalarExprSpec::Min { items: self.scalars(&t.children) },
            70 => ScalarExprSpec::Max { items: self.scalars(&t.children) },
            71 => ScalarExprSpec::If {
                condition: Box::new(self.judgment(&t.children[0])),
                then_expr: child(1),
                else_expr: child(2),
            },
            72 => ScalarExprSpec::NoMatch { subject: child(0), patterns: self.scalars(&t.children[1..]) },
            73 => ScalarExprSpec::OverPeriods {
                over: OVER[t.value as usize / 2],
                value: child(0),
                n: (t.value % 2 == 1).then(|| child(1)),
            },
            74..=78 => self.aggregate(t),
            kind => panic!("kind {kind} is no scalar"),
        }
    }

    fn aggregate(&self, t: &Tree) -> ScalarExprSpec {
        let relation = self.text(t.value);
        let (current_slot, related_slot) = (t.fields[0].1 as usize, t.fields[1].1 as usize);
        let (kind, opaque) = t.fields[2];
        if t.kind == 78 {
            let name = self.text(opaque);
            let value =
                if kind == 82 { RelatedValueRefSpec::Input { name } } else { RelatedValueRefSpec::Derived { name } };
            return ScalarExprSpec::OnlyRelated { relation, current_slot, related_slot, value };
        }
        let where_clause = t.children.first().map(|tree| Box::new(self.judgment(tree)));
        let value = related_value(opaque);
        match t.kind {
            74 => ScalarExprSpec::CountRelated { relation, current_slot, related_slot, where_clause },
            75 => ScalarExprSpec::SumRelated { relation, current_slot, related_slot, value, where_clause },
            76 => ScalarExprSpec::ExtremeRelated {
                extreme: [ExtremeSpec::Min, ExtremeSpec::Max][opaque as usize / 2 % 2],
                relation,
                current_slot,
                related_slot,
                value,
                where_clause,
            },
            _ => ScalarExprSpec::SingleRelated { relation, current_slot, related_slot, value, where_clause },
        }
    }

    fn judgment(&self, t: &Tree) -> JudgmentExprSpec {
        let terms = |v: u32| (0..v % 4).map(term).collect();
        match t.kind {
            96 => JudgmentExprSpec::Comparison {
                left: Box::new(self.scalar(&t.children[0])),
                op: comparison(t.value),
                right: Box::new(self.scalar(&t.children[1])),
            },
            97 => JudgmentExprSpec::And { items: self.judgments(&t.children) },
            98 => JudgmentExprSpec::Or { items: self.judgments(&t.children) },
            99 => JudgmentExprSpec::ExactlyOne { items: self.judgments(&t.children) },
            100 => JudgmentExprSpec::Not { item: Box::new(self.judgment(&t.children[0])) },
            101 => JudgmentExprSpec::RelationMember {
                relation: self.text(t.value),
                current_slot: t.fields[0].1 as usize,
                related_slot: t.fields[1].1 as usize,
            },
            102 => JudgmentExprSpec::RelationAtom { relation: self.text(t.value), terms: terms(t.fields[0].1) },
            103 => JudgmentExprSpec::Exists {
                relation: self.text(t.value),
                terms: terms(t.fields[0].1),
                variable_slot: t.fields[0].1 as usize,
                body: Box::new(self.judgment(&t.children[0])),
            },
            104 => JudgmentExprSpec::SameEntity {
                left: term(t.value),
                right: term(t.value / 2),
                negated: t.value % 2 == 1,
            },
            105 => JudgmentExprSpec::Derived { name: self.text(t.value) },
            106 => JudgmentExprSpec::RoleDerived { term: term(t.value), name: t.value.to_string() },
            kind => panic!("kind {kind} is no judgment"),
        }
    }

    // ---- back from the original

    /// The original's program as records; opaque words, N, defaulted names and blocks are those of the pack.
    pub fn back(&self, spec: &ProgramSpec, pack: &Pack) -> Pack {
        assert_eq!((spec.relations.len(), spec.derived.len()), (pack.relations.len(), pack.rules.len()));
        Pack {
            relations: spec.relations.iter().zip(&pack.relations).map(|(r, was)| self.relation_back(r, was)).collect(),
            rules: spec.derived.iter().zip(&pack.rules).map(|(r, was)| self.rule_back(r, was)).collect(),
            n: pack.n,
            defaulted: pack.defaulted.clone(),
            blocks: pack.blocks.clone(),
        }
    }

    fn relation_back(&self, r: &RelationSpec, was: &Relation) -> Relation {
        let name = self.number(&r.name);
        Relation {
            name,
            origin: self.origin(name),
            arity: r.arity as u32,
            kinds: self.numbers(&r.slot_entities),
            derived: r.derivation.as_ref().map(|d| Derivation {
                source: self.maybe_number(&d.source_relation),
                path: d.source_path.as_ref().map(|steps| {
                    steps.iter().map(|s| [self.number(&s.relation), s.from_slot as u32, s.to_slot as u32]).collect()
                }),
                current_slot: d.current_slot as u32,
                related_slot: d.related_slot as u32,
                entity: self.maybe_number(&d.entity),
                member: self.maybe_number(&d.member_relation),
                kinds: self.numbers(&d.slot_entities),
                predicate: self.judgment_back(&d.predicate, &was.derived.as_ref().unwrap().predicate),
            }),
        }
    }

    fn rule_back(&self, r: &DerivedSpec, was: &Rule) -> Rule {
        let name = self.number(r.id.as_ref().unwrap_or(&r.name));
        let all = std::iter::once(&r.semantics).chain(r.versions.iter().map(|version| &version.semantics));
        assert_eq!(1 + r.versions.len(), was.bodies.len());
        Rule {
            name,
            origin: self.origin(name),
            entity: self.number(&r.entity),
            bodies: all
                .zip(&was.bodies)
                .map(|(semantics, was)| match semantics {
                    DerivedSemanticsSpec::Scalar { expr } => self.scalar_back(expr, was),
                    DerivedSemanticsSpec::Judgment { expr } => self.judgment_back(expr, was),
                })
                .collect(),
        }
    }

    fn scalars_back(&self, kind: u8, items: &[ScalarExprSpec], was: &Tree) -> Tree {
        assert_eq!(items.len(), was.children.len());
        let children = items.iter().zip(&was.children).map(|(item, was)| self.scalar_back(item, was)).collect();
        Tree::new(kind, items.len() as u32, &[], children)
    }

    fn judgments_back(&self, kind: u8, items: &[JudgmentExprSpec], was: &Tree) -> Tree {
        assert_eq!(items.len(), was.children.len());
        let children = items.iter().zip(&was.children).map(|(item, was)| self.judgment_back(item, was)).collect();
        Tree::new(kind, items.len() as u32, &[], children)
    }

    fn scalar_back(&self, expr: &ScalarExprSpec, was: &Tree) -> Tree {
        use ScalarExprSpec::*;
        let child = |i: usize, expr: &ScalarExprSpec| self.scalar_back(expr, &was.children[i]);
        let chosen = |form: ScalarExprSpec| assert_eq!(discriminant(expr), discriminant(&form));
        match expr {
            Literal { .. }
            | Input { .. }
            | InputForYear { .. }
            | InputOrElse { .. }
            | RoleInput { .. }
            | RoleDerived { .. }
            | PeriodStart
            | PeriodEnd => {
                chosen(leaf(was.value));
                Tree::leaf(64, was.value)
            }
            Derived { name } => Tree::leaf(65, self.number(name)),
            Ceil { value: a }
            | Floor { value: a }
            | CalendarYearsToMonths { years: a }
            | ParameterLookup { index: a, .. } => {
                chosen(one_child(was.value, nothing()));
                Tree::new(66, was.value, &[], vec![child(0, a)])
            }
            Sub { left: a, right: b }
            | Mul { left: a, right: b }
            | Div { left: a, right: b }
            | DateAddDays { date: a, days: b }
            | DateAddMonths { date: a, months: b }
            | DateAddYears { date: a, years: b }
            | DaysBetween { from: a, to: b } => {
                chosen(two_children(was.value, nothing(), nothing()));
                Tree::new(67, was.value, &[], vec![child(0, a), child(1, b)])
            }
            Add { items } => self.scalars_back(68, items, was),
            Min { items } => self.scalars_back(69, items, was),
            Max { items } => self.scalars_back(70, items, was),
            If { condition, then_expr, else_expr } => {
                let condition = self.judgment_back(condition, &was.children[0]);
                Tree::new(71, 0, &[], vec![condition, child(1, then_expr), child(2, else_expr)])
            }
            NoMatch { subject, patterns } => {
                assert_eq!(1 + patterns.len(), was.children.len());
                let mut children = vec![child(0, subject)];
                children.extend(patterns.iter().enumerate().map(|(i, pattern)| child(i + 1, pattern)));
                Tree::new(72, patterns.len() as u32, &[], children)
            }
            OverPeriods { over, value, n } => {
                let mut children = vec![child(0, value)];
                children.extend(n.iter().map(|n| child(1, n)));
                let over = OVER.iter().position(|o| o == over).unwrap() as u32;
                Tree::new(73, 2 * over + n.is_some() as u32, &[], children)
            }
            CountRelated { relation, current_slot, related_slot, where_clause } => {
                self.aggregate_back(74, relation, (*current_slot, *related_slot), where_clause, was)
            }
            SumRelated { relation, current_slot, related_slot, where_clause, .. } => {
                self.aggregate_back(75, relation, (*current_slot, *related_slot), where_clause, was)
            }
            ExtremeRelated { relation, current_slot, related_slot, where_clause, .. } => {
                self.aggregate_back(76, relation, (*current_slot, *related_slot), where_clause, was)
            }
            SingleRelated { relation, current_slot, related_slot, where_clause, .. } => {
                self.aggregate_back(77, relation, (*current_slot, *related_slot), where_clause, was)
            }
            OnlyRelated { relation, current_slot, related_slot, value } => {
                let value = match value {
                    RelatedValueRefSpec::Input { name } => (82, self.number(name)),
                    RelatedValueRefSpec::Derived { name } => (84, self.number(name)),
                };
                let fields = [(80, *current_slot as u32), (81, *related_slot as u32), value];
                Tree::new(78, self.number(relation), &fields, vec![])
            }
        }
    }

    fn aggregate_back(
        &self,
        kind: u8,
        relation: &str,
        slots: (usize, usize),
        inner: &Option<Box<JudgmentExprSpec>>,
        was: &Tree,
    ) -> Tree {
        let opaque = was.fields[2].1;
        let fields = [(80, slots.0 as u32), (81, slots.1 as u32), (86, opaque), (83, inner.is_some() as u32)];
        let children = inner.iter().map(|tree| self.judgment_back(tree, &was.children[0])).collect();
        Tree::new(kind, self.number(relation), &fields, children)
    }

    fn judgment_back(&self, expr: &JudgmentExprSpec, was: &Tree) -> Tree {
        use JudgmentExprSpec::*;
        match expr {
            Comparison { left, op, right } => {
                assert_eq!(discriminant(op), discriminant(&comparison(was.value)));
                let left = self.scalar_back(left, &was.children[0]);
                Tree::new(96, was.value, &[], vec![left, self.scalar_back(right, &was.children[1])])
            }
            And { items } => self.judgments_back(97, items, was),
            Or { items } => self.judgments_back(98, items, was),
            ExactlyOne { items } => self.judgments_back(99, items, was),
            Not { item } => Tree::new(100, 0, &[], vec![self.judgment_back(item, &was.children[0])]),
            RelationMember { relation, current_slot, related_slot } => {
                let fields = [(80, *current_slot as u32), (81, *related_slot as u32)];
                Tree::new(101, self.number(relation), &fields, vec![])
            }
            RelationAtom { relation, .. } => Tree::new(102, self.number(relation), &[(85, was.fields[0].1)], vec![]),
            Exists { relation, body, variable_slot, .. } => {
                let body = self.judgment_back(body, &was.children[0]);
                Tree::new(103, self.number(relation), &[(85, *variable_slot as u32)], vec![body])
            }
            SameEntity { .. } => Tree::leaf(104, was.value),
            Derived { name } => Tree::leaf(105, self.number(name)),
            RoleDerived { .. } => Tree::leaf(106, was.value),
        }
    }

    // ---- what the original answers

    /// The words of the original's result, or its refusal.
    pub fn resolved(&self, pack: &Pack) -> Result<Pack, Refused> {
        let mut input = self.input(pack);
        assert_eq!(self.back(&input.spec, pack), *pack, "there and back");
        match input.resolve() {
            Ok(()) => Ok(self.back(&input.spec, pack)),
            Err(error) => Err(self.refused(&error)),
        }
    }

    fn refused(&self, error: &DirectionError) -> Refused {
        match error {
            DirectionError::DerivedSlots { relation, .. } => {
                Refused { number: 9, name: self.number(relation), other: 0 }
            }
            DirectionError::Aggregate { citing, entity, .. } => {
                Refused { number: 10, name: self.number(citing), other: self.number(entity) }
            }
            DirectionError::OnlyRelatedInput { citing, input, message } => {
                let number = match message.as_str() {
                    "derived values are not supported" => 11,
                    "inputs must be a sequence" => 12,
                    "input declaration is missing or ambiguous" => 13,
                    "input dtype must be Boolean" => 14,
                    "input entity must equal the declared related-slot entity" => 15,
                    _ => panic!("{message}"),
                };
                // A derived value is named by how it is shown.
                let shown = |name: &String| format!("{:?}", RelatedValueRefSpec::Derived { name: name.clone() });
                let other = match number {
                    11 => self.texts.iter().position(|name| shown(name) == *input).unwrap() as u32,
                    _ => self.number(input),
                };
                Refused { number, name: self.number(citing), other }
            }
        }
    }

    /// The model's program, filled field by field; its predicates are left out, as no table reads them.
    fn program(&self, pack: &Pack) -> Program {
        let schema = |r: &Relation| RelationSchema {
            name: self.text(r.name),
            arity: r.arity as usize,
            slot_entities: self.all(&r.kinds),
            derivation: r.derived.as_ref().map(|d| RelationDerivation {
                source_relation: self.maybe(d.source),
                source_path: d.path.as_ref().map(|steps| {
                    let step = |s: &[u32; 3]| RelationPathStep {
                        relation: self.text(s[0]),
                        from_slot: s[1] as usize,
                        to_slot: s[2] as usize,
                    };
                    steps.iter().map(step).collect()
                }),
                current_slot: d.current_slot as usize,
                related_slot: d.related_slot as usize,
                entity: self.maybe(d.entity),
                member_relation: self.maybe(d.member),
                slot_entities: self.all(&d.kinds),
                predicate: JudgmentExpr::And(vec![]),
            }),
        };
        Program {
            relations: pack.relations.iter().map(|r| (self.text(r.name), schema(r))).collect(),
            ..Program::default()
        }
    }

    pub fn tables(&self, pack: &Pack) -> Tables {
        let program = self.program(pack);
        let together = relation_typing::EffectiveSlotEntities::new(&program);
        let kinds_of = |text: &String| {
            let kinds = relation_typing::effective_slot_entities(&program, text);
            assert_eq!(kinds.as_deref(), together.get(text));
            kinds.map(|kinds| self.numbers(&kinds))
        };
        let innermost = relation_typing::filtered_entity_kinds(&program);
        let alias = relation_typing::filtered_entity_names(&program);
        let unresolved = relation_typing::unresolved_filtered_entities(&program);
        let each = |f: &dyn Fn(&String) -> u32| self.texts.iter().map(f).collect::<Vec<_>>();
        let innermost = each(&|text| innermost.get(text).map_or(NONE, |kind| self.number(kind)));
        Tables {
            kinds: self.texts.iter().map(kinds_of).collect(),
            steps: self.steps(pack),
            direct: self.direct(pack, &innermost),
            alias: each(&|text| alias.contains(text) as u32),
            unresolved: each(&|text| unresolved.contains(text) as u32),
            innermost,
        }
    }

    /// How many nodes the original's `follow_chains` steps to, from every relation.
    fn steps(&self, pack: &Pack) -> u32 {
        let declared: HashMap<&str, &Relation> =
            pack.relations.iter().map(|r| (self.texts[r.name as usize].as_str(), r)).collect();
        let mut steps = 0;
        relation_typing::follow_chains(declared.keys().copied(), (), |name| {
            steps += 1;
            match declared
                .get(name)
                .and_then(|r| r.derived.as_ref().filter(|d| d.kinds.is_empty() && r.kinds.is_empty()))
            {
                Some(d) if d.source != NONE && d.path.is_none() => {
                    ChainStep::Next(self.texts[d.source as usize].as_str())
                }
                _ => ChainStep::End(()),
            }
        });
        steps
    }

    /// The original's direct table, which is private: for every entity, an aggregate over a relation with the slot kinds
    /// [k, another], for every k, is turned where k is what the entity stands for. An entity that stands for itself has
    /// itself as direct where innermost leads from it to itself, and none otherwise.
    fn direct(&self, pack: &Pack, innermost: &[u32]) -> Vec<u32> {
        let mut candidates: Vec<u32> = (0..pack.n).collect();
        candidates.retain(|k| {
            pack.relations.iter().any(|r| {
                r.kinds.contains(k) || r.derived.as_ref().is_some_and(|d| d.kinds.contains(k) || d.entity == *k)
            })
        });
        let probe = |k: u32| format!("\u{10FFFF}{k}");
        let mut relations: Vec<_> = pack.relations.iter().map(|r| self.relation(r)).collect();
        for r in &mut relations {
            if let Some(d) = &mut r.derivation {
                d.predicate = JudgmentExprSpec::And { items: vec![] };
            }
        }
        relations.extend(candidates.iter().map(|&k| RelationSpec {
            name: probe(k),
            arity: 2,
            slot_entities: vec![self.text(k), "\u{10FFFF}another".into()],
            derivation: None,
        }));
        let entities: Vec<u32> = candidates.clone();
        let count = |k: &u32| ScalarExprSpec::CountRelated {
            relation: probe(*k),
            current_slot: 7,
            related_slot: 9,
            where_clause: None,
        };
        let rule = |&e: &u32| DerivedSpec {
            semantics: DerivedSemanticsSpec::Scalar {
                expr: ScalarExprSpec::Add { items: candidates.iter().map(count).collect() },
            },
            ..self.rule(0, &Rule { name: 0, origin: NONE, entity: e, bodies: vec![Tree::leaf(64, 0)] })
        };
        let mut spec =
            ProgramSpec { relations, derived: entities.iter().map(rule).collect(), ..ProgramSpec::default() };
        relation_direction::resolve(&mut spec, &HashSet::new(), &Value::Null, None, &[])
            .expect("probes are not refused");
        let mut stands_for = BTreeMap::new();
        for (&e, rule) in entities.iter().zip(&spec.derived) {
            let DerivedSemanticsSpec::Scalar { expr: ScalarExprSpec::Add { items } } = &rule.semantics else {
                unreachable!()
            };
            let turned = |item: &ScalarExprSpec| {
                matches!(item, ScalarExprSpec::CountRelated { current_slot: 0, related_slot: 1, .. })
            };
            let found: Vec<_> =
                candidates.iter().zip(items).filter(|(_, item)| turned(item)).map(|(&k, _)| k).collect();
            let [k] = found[..] else { panic!("{e} stands for {found:?}") };
            stands_for.insert(e, k);
        }
        (0..pack.n)
            .map(|e| match stands_for.get(&e) {
                Some(&k) if k != e || innermost[e as usize] == e => k,
                _ => NONE,
            })
            .collect()
    }
}
