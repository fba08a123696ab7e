//! Mistakes that can be made in the model on purpose, one at a time: a comparison that is worth something notices each.

use std::cell::Cell;

macro_rules! faults {
    ($($name:ident $of:ident $text:literal,)*) => {
        #[derive(Clone, Copy, Debug, PartialEq)]
        pub enum Fault { $($name),* }
        pub const FAULTS: &[(Fault, Of, &str)] = &[$((Fault::$name, Of::$of, $text)),*];
    };
}

/// Where a mistake shows: in Check, in the tables, in Lean, in Resolve.
#[derive(Clone, Copy, Debug, PartialEq)]
pub enum Of {
    Check,
    Tables,
    Lean,
    Resolve,
}

thread_local! {
    static MADE: Cell<Option<Fault>> = const { Cell::new(None) };
}

/// Runs with a mistake, on this thread.
pub fn with<T>(fault: Fault, run: impl FnOnce() -> T) -> T {
    MADE.set(Some(fault));
    let answer = run();
    MADE.set(None);
    answer
}

/// Whether this mistake is to be made; it never is but within `with`.
pub(crate) fn mistaken(fault: Fault) -> bool {
    MADE.get() == Some(fault)
}

faults! {
    EmptyPath Tables "an empty path read as no path",
    PathInherits Tables "a path with a source inherits",
    OwnListFirst Tables "list 9 before list 21",
    ListNineIgnored Tables "a derivation leads to its source though list 9 has kinds",
    FirstStepInherits Tables "a path inherits from its first step",
    UndeclaredUncounted Tables "undeclared sources not counted as steps",
    RingCountedTwice Tables "the name that closes a ring counted again",
    FeedersKeep Tables "what leads into a ring of direct kinds answers the first name of the ring",
    SelfRing Tables "a name that is its own direct kind taken for a ring",
    FirstKindWins Tables "of several kinds taken the first one wins",
    RelatedTaken Tables "entities take the kind at the related slot",
    AliasOfSelf Tables "an alias wherever a kind is taken",
    UnresolvedConflict Tables "unresolved where kinds disagree",
    PathsNotFollowed Lean "leaning along sources alone",
    FirstStepAlone Lean "leaning along the first step of a path alone",
    LastStepLost Lean "leaning along all steps of a path but the last",
    PathHidesSource Lean "no leaning on the source where there is a path",
    UndeclaredStepLost Lean "no leaning on a step's relation that is not declared",
    StepLeadsNoFurther Lean "leaning no further than a step's relation",
    ListEndsLeaning Lean "leaning ended by a list of kinds",
    LeansOnItself Lean "every name leaning on itself",
    MemberLeantOn Lean "leaning on the member relation",
    SecondNameFirst Lean "17 of Lean's second name first",
    InnermostForDirect Resolve "innermost where direct is meant",
    EntityAlone Resolve "the entity where direct is meant",
    PatternMembership Resolve "membership carried into patterns",
    SubjectLosesMembership Resolve "membership lost in a NoMatch's subject",
    WhereMembership Resolve "membership carried into where trees",
    PeriodsMembership Resolve "membership carried into OverPeriods",
    ExistsLosesMembership Resolve "membership lost in the body of an Exists",
    StampAll Resolve "stamping all that have kinds",
    StampAtoms Resolve "stamping what an atom or Exists names",
    StampOwners Resolve "stamping what holds kinds 102 to 104",
    StampNoSame Resolve "stamping what holds a SameEntity",
    StampListed Resolve "passing over though one of the lists has kinds",
    AtomsOfRules Resolve "the atoms of rules not counted",
    AtomsInWhere Resolve "the atoms in where trees not counted",
    StampOneList Resolve "stamping list 21 alone",
    RangeIsEqual Resolve "a related slot out of range counted as equal",
    SlotsKept Resolve "the node's slots kept over a derived relation",
    MemberSlotsKept Resolve "the node's slots kept in a membership test of a derived relation",
    AnyArity Resolve "typed relations of any number of kinds",
    TwoMatchesKept Resolve "two matches keep the slots",
    OtherDirect Resolve "10 names the direct kind, not the entity",
    FirstMatch Resolve "two matches take the first",
    UnmatchedTurned Resolve "no match turns the slots",
    UnmatchedNoKind Resolve "no match results in no kind",
    WhereEntity Resolve "a where tree keeps the rule's entity",
    PredicateCurrent Resolve "a predicate's entity is the current kind",
    OneBorne Resolve "a membership test turned where one kind is borne",
    EqualAny Resolve "a membership test of equal kinds refused where one slot has it",
    DerivedPasses Resolve "OnlyRelated of a derived value passes",
    BooleanFirst Resolve "14 before 13",
    OwnerFirst Resolve "15 before 14",
    NoSequencePasses Resolve "a block that is no sequence passed over",
    AnyOrigin Resolve "blocks of every origin looked at",
    NoneOfNoOrigin Resolve "no block for a citing name without origin",
    EmptyOwner Resolve "an empty owner taken",
    FirstDeclaration Resolve "the first of several declarations taken",
    DefaultedInOrder Resolve "9 in record order",
    DefaultedNotDerived Resolve "9 for relations without derivation too",
    DefaultedLast Resolve "9 after the trees",
    FirstBodyOnly Resolve "only the first body of a rule resolved",
    RelationsFirst Resolve "relations before rules",
    RoomOfPack Resolve "16 by the pack's length, not the result's",
    OldTotal Resolve "the pack's total kept",
    NoDepth Check "no bound on the depth",
    WhereDepth Check "a where tree no deeper than its node",
    DepthAfterValue Check "4 before 5",
    KindAfterDepth Check "5 before 2",
    NoneEverywhere Check "none allowed in every name field",
    NoneNowhere Check "none allowed in no name field",
    AnyTotal Check "any total",
    RisingOrEqual Check "defaulted names may repeat",
    UsedLater Check "7 only for neighbours",
    LeftOver Check "words left over allowed",
    AnySort Check "a tree of either sort in every place",
    AnyFlag Check "any flag",
    AnyList Check "lists of any length",
    LongPath Check "paths of 9 steps",
    NoBodies Check "rules without bodies",
    LargePeriods Check "OverPeriods to 8",
    AnyNot Check "Not and If with any value",
    LargeName Check "names up to N",
    LastPlace Check "3 at the last word",
}
