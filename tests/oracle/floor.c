/* The floor: Check and Resolve of the scope (01), from bytes to bytes, in plain C and unproved. The benchmark gives the
 * library's time as a multiple of this one's; the comparison holds it to the library's answers and bytes.
 *
 * A pack is read once. Reading checks it, makes a directory of the relations and notes the nodes that have slots, each with
 * what it stands inside. Then chains are settled over the directory, the notes are turned in a flat loop, those of rules
 * before those of relations, and the records are written with the lists that are stamped. Nothing is taken from the heap.
 *
 * A reading function answers the place behind what it has read, or 0 where it refuses: then the answer is in the work.
 */
#include "cogunwa.h"
#include <string.h>

_Static_assert(__BYTE_ORDER__ == __ORDER_LITTLE_ENDIAN__, "words are copied with their low byte first");

enum kind {
    TOTAL = 1, NAMES, DEFAULTED, DEFAULTED_NAME,
    RELATIONS, RELATION_NAME, RELATION_ORIGIN, ARITY, LIST_9, SLOT_KIND, HAS_DERIVATION,
    SOURCE, PATH, STEP_RELATION, STEP_FROM, STEP_TO, CURRENT, RELATED, ENTITY, MEMBER_RELATION, LIST_21,
    RULES, CITING_NAME, RULE_ORIGIN, RULE_ENTITY, BODIES, BODY_SORT,
    BLOCKS, BLOCK_ORIGIN, ITEMS, ITEM_NAME, ITEM_BOOLEAN, ITEM_ENTITY,
    LEAF = 64, DERIVED, ONE_CHILD, TWO_CHILDREN, ADD, MIN, MAX, IF, NO_MATCH, OVER_PERIODS,
    COUNT, SUM, EXTREME, SINGLE, ONLY_RELATED,
    NODE_CURRENT = 80, NODE_RELATED, INPUT, HAS_WHERE, DERIVED_INPUT, ATOM_OPAQUE, AGGREGATE_OPAQUE,
    COMPARISON = 96, AND, OR, EXACTLY_ONE, NOT, RELATION_MEMBER, RELATION_ATOM, EXISTS, SAME_ENTITY,
    DERIVED_JUDGMENT, ROLE_DERIVED
};

enum {
    KIND_BITS = 24,
    NONE = COGUNWA_NONE,
    MOST_WORDS = COGUNWA_MAX_WORDS,
    MOST_NAMES = COGUNWA_MAX_NAMES,
    MOST_DEFAULTED = 512,
    MOST_RELATIONS = COGUNWA_MAX_RELATIONS,
    MOST_KINDS = 8,
    MOST_STEPS = 8,
    MOST_RULES = COGUNWA_MAX_RULES,
    MOST_BODIES = 64,
    MOST_BLOCKS = COGUNWA_MAX_BLOCKS,
    MOST_ITEMS = 1024,
    MOST_PERIODS = 7,
    MOST_DEPTH = COGUNWA_MAX_DEPTH,
    FLAG = 1, /* the most that a flag is */

    /* A noted node has three words or more of its own. */
    MOST_NOTES = MOST_WORDS / 3,
    /* Words of kind 0 behind the pack: whoever reads on comes upon a wrong kind. */
    PAD = 8,
    COPY_STEP = 32, /* bytes */

    /* Relations are numbered from 1 on; 0 stands for undeclared ones. What a node can stand inside is numbered through:
     * relations, then rules, then noted nodes. */
    FIRST_RULE = MOST_RELATIONS + 1,
    FIRST_NODE = FIRST_RULE + MOST_RULES,

    /* No kind at a slot; no relation has a kind like it. */
    NO_KIND = 0xFFFF
};

/* The sorts of trees: their kinds div 32. */
enum sort { SCALAR = LEAF >> 5, JUDGMENT = COMPARISON >> 5 };

/* What resolving wants to know of a name. */
enum mark {
    NAMED_BY_ATOM = 1, /* or by an Exists */
    READ_UNDECLARED = 2,
    TAKES = 4, /* as an entity, a kind */
    TAKES_SEVERAL = 8
};

/* What the tables hold a relation for. */
enum form { NEITHER, TYPED, DERIVED_RELATION };

/* How far the chain walks are with a relation. */
enum chain { OPEN, ON_PATH, SETTLED };

struct relation {
    uint32_t slots[2];   /* of a derived one, as the words 80 and 81 of a node */
    uint16_t kind[2];    /* of a typed one its list; of a derived one the kinds at its slots, or NO_KIND */
    uint16_t place;      /* of its word 6 */
    uint16_t slots_at;   /* the place of its word 17 */
    uint16_t list;       /* the place of the settled list, or 0 */
    uint16_t source;     /* where it inherits: the name, and once linked the relation's number */
    uint8_t form;        /* enum form */
    uint8_t chain;       /* enum chain */
    uint8_t holds_atoms; /* whether its predicate has kinds 102 to 104 */
};

/* A node with slots. An aggregate stands inside a relation, a rule or the note of another; of a RelationMember `inside` is
 * the relation whose membership it has, or 0. */
struct note {
    uint16_t place;
    uint16_t inside;
};

/* All that is known of a pack. What is not set while it is read is set before it is looked at. */
struct work {
    uint64_t answer; /* where a part refuses */
    uint32_t length; /* in words */
    uint32_t names;  /* N */
    uint32_t relations;
    uint32_t notes;
    uint32_t notes_of_relations; /* they come before those of rules */
    uint32_t blocks_at;          /* the place of the word 28 */
    uint32_t steps;
    uint32_t holds_atoms; /* whether the tree that is being read has kinds 102 to 104 */
    /* The pack, whose slots are turned in place; aligned, as it is copied by many bytes at once. */
    _Alignas(64) uint32_t words[MOST_WORDS + PAD];
    struct relation relation[MOST_RELATIONS + 1];
    uint16_t path[MOST_RELATIONS]; /* of a chain walk */
    uint16_t rule[MOST_RULES];     /* the places of the words 23 */
    struct note note[MOST_NOTES];
    uint16_t entity[FIRST_NODE + MOST_NOTES]; /* of the trees inside each relation, rule and noted node */
    uint16_t number[MOST_NAMES];              /* of the relation that has the name, or 0 */
    uint16_t stands_for[MOST_NAMES];          /* direct(e), or e itself */
    uint8_t mark[MOST_NAMES];
};

static inline uint32_t word_of(uint32_t kind, uint32_t value) { return kind << KIND_BITS | value; }

static inline uint32_t kind_of(uint32_t word) { return word >> KIND_BITS; }

static inline uint32_t value_of(uint32_t word) { return word & NONE; }

static inline uint64_t answer_of(uint32_t number, uint32_t place, uint32_t name, uint32_t other)
{
    return number | (uint64_t)place << 6 | (uint64_t)name << 20 | (uint64_t)other << 52;
}

/* Keeps a loop from being made a call of memcpy: that takes long for a few words, and on some processors for many words
 * too, where the low bits of both addresses are nearly alike. */
#define KEEP_LOOP __asm__ volatile("" ::: "memory")

/* Copies whole words; the last steps may overlap. */
static inline void copy(void *to, const void *from, size_t length)
{
    uint8_t *out = to;
    const uint8_t *in = from;
    if (length >= COPY_STEP) {
        for (size_t i = 0; i < length - COPY_STEP; i += COPY_STEP) {
            memcpy(out + i, in + i, COPY_STEP);
            KEEP_LOOP;
        }
        memcpy(out + length - COPY_STEP, in + length - COPY_STEP, COPY_STEP);
    } else if (length >= 16) {
        memcpy(out, in, 16);
        memcpy(out + length - 16, in + length - 16, 16);
    } else if (length >= 8) {
        memcpy(out, in, 8);
        memcpy(out + length - 8, in + length - 8, 8);
    } else if (length != 0) {
        memcpy(out, in, 4);
    }
}

/* ---- refusing a word */

/* A function that is seldom called, kept out of those that call it. */
#define SELDOM __attribute__((cold, noinline))

SELDOM static uint32_t refuse(struct work *w, uint32_t number, uint32_t place, uint32_t name)
{
    w->answer = answer_of(number, place, name, 0);
    return 0;
}

/* Refuses a word that is to be of one of these kinds: by 3 or 2, or else by the number. */
SELDOM static uint32_t refuse_word(struct work *w, uint32_t at, uint32_t low, uint32_t high, uint32_t number)
{
    uint32_t kind = kind_of(w->words[at]);
    if (at >= w->length) {
        return refuse(w, COGUNWA_ENDED, w->length, 0);
    }
    return refuse(w, kind < low || kind > high ? COGUNWA_WRONG_KIND : number, at, 0);
}

SELDOM static uint32_t refuse_field(struct work *w, uint32_t at, uint32_t kind)
{
    return refuse_word(w, at, kind, kind, COGUNWA_WRONG_VALUE);
}

SELDOM static uint32_t refuse_node(struct work *w, uint32_t at, uint32_t sort, uint32_t number)
{
    return sort == SCALAR ? refuse_word(w, at, LEAF, ONLY_RELATED, number)
                          : refuse_word(w, at, COMPARISON, ROLE_DERIVED, number);
}

/* Has the reading function refuse the word at a place where it is not as it should be. */
#define WANT(holds, at, kind)                  \
    do {                                       \
        if (!(holds)) {                        \
            return refuse_field(w, at, kind);  \
        }                                      \
    } while (0)

/* How far a word is above the first one of a kind. It is past every value where the word is of another kind. */
static inline uint32_t above(uint32_t word, uint32_t kind) { return word - word_of(kind, 0); }

static inline int is_any(const struct work *w, uint32_t at, uint32_t kind) { return kind_of(w->words[at]) == kind; }

static inline int is_up_to(const struct work *w, uint32_t at, uint32_t kind, uint32_t most)
{
    return above(w->words[at], kind) <= most;
}

static inline int is_up_to_or_none(const struct work *w, uint32_t at, uint32_t kind, uint32_t most)
{
    return is_up_to(w, at, kind, most) || w->words[at] == word_of(kind, NONE);
}

static inline int is_name(const struct work *w, uint32_t at, uint32_t kind)
{
    return above(w->words[at], kind) < w->names;
}

static inline int is_name_or_none(const struct work *w, uint32_t at, uint32_t kind)
{
    return is_name(w, at, kind) || w->words[at] == word_of(kind, NONE);
}

/* ---- reading trees */

/* A row: trees of one sort, side by side. It is one number: from the low bits on how many are still to be read (24 bits),
 * their sort (2), their depth (6), what they stand inside (16), and the relation whose membership they have, or 0 (16). */
typedef uint64_t row;

#define ROW_SORT (1ull << 24)
#define ROW_DEPTH (1ull << 26)
#define ROW_INSIDE (1ull << 32)
#define ROW_MEMBERSHIP (1ull << 48)

static inline uint32_t row_left(row r) { return (uint32_t)r % (uint32_t)ROW_SORT; }

static inline uint32_t row_sort(row r) { return (uint32_t)(r / ROW_SORT % 4); }

static inline uint32_t row_inside(row r) { return (uint16_t)(r / ROW_INSIDE); }

static inline uint32_t row_membership(row r) { return (uint32_t)(r / ROW_MEMBERSHIP); }

static inline int row_is_too_deep(row r) { return r / ROW_DEPTH % 64 > MOST_DEPTH; }

static inline row without_membership(row r) { return r % ROW_MEMBERSHIP; }

/* So many children of a row's nodes. */
static inline row row_below(row r, uint32_t sort, uint32_t count)
{
    return r / ROW_DEPTH * ROW_DEPTH + ROW_DEPTH + sort * ROW_SORT + count;
}

/* The where tree of a node whose note has this number, or none. */
static inline row row_of_where(row r, uint32_t note, uint32_t flag)
{
    return row_below(r, JUDGMENT, flag) % ROW_INSIDE + (FIRST_NODE + note) * ROW_INSIDE;
}

static inline void add_note(struct work *w, uint32_t at, uint32_t inside)
{
    w->note[w->notes++] = (struct note){(uint16_t)at, (uint16_t)inside};
}

static inline int has_slots(const uint32_t *node)
{
    return kind_of((node[1] ^ word_of(NODE_CURRENT, 0)) | (node[2] ^ word_of(NODE_RELATED, 0))) == 0;
}

/* Refuses one of the two slots. */
SELDOM static uint32_t refuse_slots(struct work *w, uint32_t at)
{
    WANT(is_any(w, at + 1, NODE_CURRENT), at + 1, NODE_CURRENT);
    return refuse_field(w, at + 2, NODE_RELATED);
}

static inline uint32_t read_aggregate(struct work *w, uint32_t at, row r)
{
    if (!has_slots(w->words + at)) {
        return refuse_slots(w, at);
    }
    WANT(is_any(w, at + 3, AGGREGATE_OPAQUE), at + 3, AGGREGATE_OPAQUE);
    WANT(is_up_to(w, at + 4, HAS_WHERE, FLAG), at + 4, HAS_WHERE);
    add_note(w, at, row_inside(r));
    return at + 5;
}

static inline uint32_t read_only_related(struct work *w, uint32_t at, row r)
{
    if (!has_slots(w->words + at)) {
        return refuse_slots(w, at);
    }
    WANT(is_any(w, at + 3, INPUT) || is_any(w, at + 3, DERIVED_INPUT), at + 3, INPUT);
    WANT(value_of(w->words[at + 3]) < w->names, at + 3, kind_of(w->words[at + 3]));
    add_note(w, at, row_inside(r));
    return at + 4;
}

static inline uint32_t read_member(struct work *w, uint32_t at, row r)
{
    if (!has_slots(w->words + at)) {
        return refuse_slots(w, at);
    }
    add_note(w, at, row_membership(r));
    return at + 3;
}

static inline uint32_t read_atom(struct work *w, uint32_t at)
{
    WANT(is_any(w, at + 1, ATOM_OPAQUE), at + 1, ATOM_OPAQUE);
    w->mark[value_of(w->words[at])] |= NAMED_BY_ATOM;
    w->holds_atoms = 1;
    return at + 2;
}

/* Refuses a node's value. */
SELDOM static uint32_t refuse_value(struct work *w, uint32_t at, row r)
{
    return refuse_node(w, at, row_sort(r), COGUNWA_WRONG_VALUE);
}

/* Rows that wait until those in front of them are read. */
struct rows {
    row row[2 * MOST_DEPTH + 1];
    uint32_t count;
};

static inline void wait(struct rows *waiting, row r)
{
    waiting->row[waiting->count] = r;
    waiting->count += row_left(r) != 0;
}

/* Reads a node of a row, its children apart, which are the row `below`. Where they are of two sorts, or only some lose
 * membership, the first of them are; the others come to be what is left to read, and the node's own row waits. */
static inline uint32_t read_node(struct work *w, uint32_t at, row *r, row *below, struct rows *waiting)
{
    uint32_t kind = kind_of(w->words[at]), value = value_of(w->words[at]);
    *below = 0;
    if (kind >> 5 != row_sort(*r)) {
        return refuse_value(w, at, *r);
    }
    --*r;
    switch (kind) {
    case LEAF: case ROLE_DERIVED:
        return at + 1;
    case DERIVED: case DERIVED_JUDGMENT:
        return value < w->names ? at + 1 : refuse_value(w, at, *r);
    case SAME_ENTITY:
        w->holds_atoms = 1;
        return at + 1;
    case ONE_CHILD:
        *below = row_below(*r, SCALAR, 1);
        return at + 1;
    case TWO_CHILDREN: case COMPARISON:
        *below = row_below(*r, SCALAR, 2);
        return at + 1;
    case ADD: case MIN: case MAX:
        *below = row_below(*r, SCALAR, value);
        return at + 1;
    case AND: case OR: case EXACTLY_ONE:
        *below = row_below(*r, JUDGMENT, value);
        return at + 1;
    case NOT:
        *below = row_below(*r, JUDGMENT, 1);
        return value == 0 ? at + 1 : refuse_value(w, at, *r);
    case IF:
        if (value != 0) {
            return refuse_value(w, at, *r);
        }
        *below = row_below(*r, JUDGMENT, 1);
        wait(waiting, *r);
        *r = row_below(*r, SCALAR, 2);
        return at + 1;
    case NO_MATCH:
        *below = row_below(*r, SCALAR, 1);
        wait(waiting, *r);
        *r = without_membership(row_below(*r, SCALAR, value));
        return at + 1;
    case OVER_PERIODS:
        *below = without_membership(row_below(*r, SCALAR, 1 + value % 2));
        return value <= MOST_PERIODS ? at + 1 : refuse_value(w, at, *r);
    case COUNT: case SUM: case EXTREME: case SINGLE:
        /* The flag is looked at before it is checked; it counts only where reading the aggregate goes on. */
        *below = row_of_where(*r, w->notes, value_of(w->words[at + 4]));
        return value < w->names ? read_aggregate(w, at, *r) : refuse_value(w, at, *r);
    case ONLY_RELATED:
        return value < w->names ? read_only_related(w, at, *r) : refuse_value(w, at, *r);
    case RELATION_MEMBER:
        return value < w->names ? read_member(w, at, *r) : refuse_value(w, at, *r);
    case EXISTS:
        *below = row_below(*r, JUDGMENT, 1);
        /* fall through */
    case RELATION_ATOM:
        return value < w->names ? read_atom(w, at) : refuse_value(w, at, *r);
    default:
        return refuse_value(w, at, *r);
    }
}

/* Trees from a row on: answers the place behind them. */
static uint32_t read_trees(struct work *w, uint32_t at, row r)
{
    struct rows waiting;
    row below;
    waiting.count = 0;
    for (;;) {
        while (row_left(r) == 0) {
            if (waiting.count == 0) {
                return at;
            }
            r = waiting.row[--waiting.count];
        }
        at = read_node(w, at, &r, &below, &waiting);
        if (at == 0) {
            return 0;
        }
        if (row_left(below) == 0) {
            continue;
        }
        if (row_is_too_deep(below)) {
            return refuse_node(w, at, row_sort(below), COGUNWA_TOO_DEEP);
        }
        wait(&waiting, r);
        r = below;
    }
}

/* The tree of a rule's body or a relation's predicate; a rule has no membership. */
static inline uint32_t read_tree(struct work *w, uint32_t at, uint32_t sort, uint32_t inside, uint32_t membership)
{
    return read_trees(w, at, membership * ROW_MEMBERSHIP + inside * ROW_INSIDE + ROW_DEPTH + sort * ROW_SORT + 1);
}

/* ---- reading records */

static inline uint32_t read_list(struct work *w, uint32_t at, uint32_t kind)
{
    if (w->words[at] == word_of(kind, 0)) {
        return at + 1;
    }
    WANT(is_up_to(w, at, kind, MOST_KINDS), at, kind);
    uint32_t end = at + 1 + value_of(w->words[at]);
    for (at++; at < end; at++) {
        WANT(is_name(w, at, SLOT_KIND), at, SLOT_KIND);
    }
    return end;
}

static inline uint32_t read_path(struct work *w, uint32_t at)
{
    if (w->words[at] == word_of(PATH, NONE)) {
        return at + 1;
    }
    WANT(is_up_to(w, at, PATH, MOST_STEPS), at, PATH);
    uint32_t count = value_of(w->words[at++]);
    for (; count > 0; count--, at += 3) {
        WANT(is_name(w, at, STEP_RELATION), at, STEP_RELATION);
        WANT(is_any(w, at + 1, STEP_FROM), at + 1, STEP_FROM);
        WANT(is_any(w, at + 2, STEP_TO), at + 2, STEP_TO);
    }
    return at;
}

/* The words 17 to 20. */
static inline uint32_t read_derived_slots(struct work *w, uint32_t at)
{
    WANT(is_any(w, at, CURRENT), at, CURRENT);
    WANT(is_any(w, at + 1, RELATED), at + 1, RELATED);
    WANT(is_name_or_none(w, at + 2, ENTITY), at + 2, ENTITY);
    WANT(is_name_or_none(w, at + 3, MEMBER_RELATION), at + 3, MEMBER_RELATION);
    return at + 4;
}

/* Notes of a derived relation what its declaration says when a chain walk reads it. */
static inline void declare_derived(const struct work *w, struct relation *r, uint32_t derivation)
{
    const uint32_t *words = w->words;
    uint32_t source = words[derivation], path = words[derivation + 1];
    uint32_t list_9 = r->place + 3u, list_21 = r->slots_at + 4u;
    r->form = DERIVED_RELATION;
    r->slots[0] = word_of(NODE_CURRENT, value_of(words[r->slots_at]));
    r->slots[1] = word_of(NODE_RELATED, value_of(words[r->slots_at + 1]));
    r->chain = SETTLED;
    r->list = 0;
    if (value_of(words[list_21]) != 0) {
        r->list = (uint16_t)list_21;
    } else if (value_of(words[list_9]) != 0) {
        r->list = (uint16_t)list_9;
    } else if (value_of(source) != NONE && value_of(path) == NONE) {
        r->chain = OPEN;
        r->source = (uint16_t)value_of(source);
    }
}

static inline uint32_t read_derivation(struct work *w, uint32_t derivation, uint32_t number)
{
    struct relation *r = &w->relation[number];
    WANT(is_name_or_none(w, derivation, SOURCE), derivation, SOURCE);
    uint32_t slots = read_path(w, derivation + 1);
    uint32_t list = slots == 0 ? 0 : read_derived_slots(w, slots);
    uint32_t predicate = list == 0 ? 0 : read_list(w, list, LIST_21);
    if (predicate == 0) {
        return 0;
    }
    r->slots_at = (uint16_t)slots;
    declare_derived(w, r, derivation);
    w->holds_atoms = 0;
    uint32_t end = read_tree(w, predicate, JUDGMENT, number, number);
    r->holds_atoms = (uint8_t)w->holds_atoms;
    return end;
}

static inline void declare_plain(const struct work *w, struct relation *r)
{
    const uint32_t *list = w->words + r->place + 3;
    r->chain = SETTLED;
    r->list = value_of(list[0]) == 0 ? 0 : (uint16_t)(r->place + 3);
    r->form = value_of(list[0]) == 2 ? TYPED : NEITHER;
    if (r->form == TYPED) {
        r->kind[0] = (uint16_t)value_of(list[1]);
        r->kind[1] = (uint16_t)value_of(list[2]);
    }
}

static inline uint32_t read_relation(struct work *w, uint32_t at, uint32_t number)
{
    struct relation *r = &w->relation[number];
    WANT(is_name(w, at, RELATION_NAME), at, RELATION_NAME);
    uint32_t name = value_of(w->words[at]);
    if (w->number[name] != 0) {
        return refuse(w, COGUNWA_NAME_USED, at, name);
    }
    w->number[name] = (uint16_t)number;
    r->place = (uint16_t)at;
    WANT(is_name_or_none(w, at + 1, RELATION_ORIGIN), at + 1, RELATION_ORIGIN);
    WANT(is_any(w, at + 2, ARITY), at + 2, ARITY);
    at = read_list(w, at + 3, LIST_9);
    if (at == 0) {
        return 0;
    }
    WANT(is_up_to(w, at, HAS_DERIVATION, FLAG), at, HAS_DERIVATION);
    if (value_of(w->words[at]) == 1) {
        return read_derivation(w, at + 1, number);
    }
    declare_plain(w, r);
    return at + 1;
}

static inline uint32_t read_rule(struct work *w, uint32_t at, uint32_t number)
{
    WANT(is_name(w, at, CITING_NAME), at, CITING_NAME);
    WANT(is_name_or_none(w, at + 1, RULE_ORIGIN), at + 1, RULE_ORIGIN);
    WANT(is_name(w, at + 2, RULE_ENTITY), at + 2, RULE_ENTITY);
    uint32_t bodies = above(w->words[at + 3], BODIES);
    WANT(bodies != 0 && bodies <= MOST_BODIES, at + 3, BODIES);
    w->rule[number] = (uint16_t)at;
    w->entity[FIRST_RULE + number] = (uint16_t)value_of(w->words[at + 2]);
    for (at += 4; bodies > 0; bodies--) {
        WANT(is_up_to(w, at, BODY_SORT, FLAG), at, BODY_SORT);
        at = read_tree(w, at + 1, value_of(w->words[at]) == 0 ? SCALAR : JUDGMENT, FIRST_RULE + number, 0);
        if (at == 0) {
            return 0;
        }
    }
    return at;
}

static inline uint32_t read_block(struct work *w, uint32_t at)
{
    WANT(is_name_or_none(w, at, BLOCK_ORIGIN), at, BLOCK_ORIGIN);
    WANT(is_up_to_or_none(w, at + 1, ITEMS, MOST_ITEMS), at + 1, ITEMS);
    uint32_t count = value_of(w->words[at + 1]);
    at += 2;
    for (uint32_t i = 0; count != NONE && i < count; i++, at += 3) {
        WANT(is_name_or_none(w, at, ITEM_NAME), at, ITEM_NAME);
        WANT(is_up_to(w, at + 1, ITEM_BOOLEAN, FLAG), at + 1, ITEM_BOOLEAN);
        WANT(is_name_or_none(w, at + 2, ITEM_ENTITY), at + 2, ITEM_ENTITY);
    }
    return at;
}

/* Total, N and the defaulted names. */
static uint32_t read_head(struct work *w)
{
    WANT(w->words[0] == word_of(TOTAL, w->length), 0, TOTAL);
    w->names = above(w->words[1], NAMES);
    WANT(w->names != 0 && w->names <= MOST_NAMES, 1, NAMES);
    WANT(is_up_to(w, 2, DEFAULTED, MOST_DEFAULTED), 2, DEFAULTED);
    uint32_t at = 3, end = at + value_of(w->words[2]), least = 0;
    for (; at < end; at++) {
        WANT(is_name(w, at, DEFAULTED_NAME), at, DEFAULTED_NAME);
        uint32_t name = value_of(w->words[at]);
        if (name < least) {
            return refuse(w, COGUNWA_NOT_RISING, at, 0);
        }
        least = name + 1;
    }
    return at;
}

static uint32_t read_relations(struct work *w, uint32_t at)
{
    WANT(is_up_to(w, at, RELATIONS, MOST_RELATIONS), at, RELATIONS);
    w->relations = value_of(w->words[at++]);
    w->relation[0] = (struct relation){.kind = {NO_KIND, NO_KIND}, .form = NEITHER, .chain = SETTLED};
    for (uint32_t i = 1; i <= w->relations && at != 0; i++) {
        at = read_relation(w, at, i);
    }
    w->notes_of_relations = w->notes;
    return at;
}

static uint32_t read_rules(struct work *w, uint32_t at)
{
    WANT(is_up_to(w, at, RULES, MOST_RULES), at, RULES);
    uint32_t rules = value_of(w->words[at++]);
    for (uint32_t i = 0; i < rules && at != 0; i++) {
        at = read_rule(w, at, i);
    }
    return at;
}

static uint32_t read_blocks(struct work *w, uint32_t at)
{
    WANT(is_up_to(w, at, BLOCKS, MOST_BLOCKS), at, BLOCKS);
    w->blocks_at = at;
    uint32_t blocks = value_of(w->words[at++]);
    for (uint32_t i = 0; i < blocks && at != 0; i++) {
        at = read_block(w, at);
    }
    return at;
}

/* Check: whether the bytes are a pack. */
static int read_pack(struct work *w, const uint8_t *pack, size_t length)
{
    if (length % 4 != 0 || length < 4 * COGUNWA_MIN_WORDS || length > COGUNWA_MAX_BYTES) {
        refuse(w, COGUNWA_WRONG_LENGTH, 0, 0);
        return 0;
    }
    w->length = (uint32_t)length / 4;
    copy(w->words, pack, length);
    memset(w->words + w->length, 0, 4 * PAD);
    w->notes = 0;
    uint32_t at = read_head(w);
    if (at == 0) {
        return 0;
    }
    memset(w->number, 0, sizeof w->number[0] * w->names);
    memset(w->mark, 0, w->names);
    at = read_relations(w, at);
    at = at == 0 ? 0 : read_rules(w, at);
    at = at == 0 ? 0 : read_blocks(w, at);
    if (at != 0 && at < w->length) {
        at = refuse(w, COGUNWA_LEFT_OVER, at, 0);
    }
    return at != 0;
}

/* ---- chains and tables */

/* Finds the relations that are inherited from. The walks read every declared name once, and every undeclared one that is
 * inherited from. */
static void link_all(struct work *w)
{
    w->steps = w->relations;
    for (uint32_t i = 1; i <= w->relations; i++) {
        struct relation *r = &w->relation[i];
        if (r->chain != OPEN) {
            continue;
        }
        uint16_t name = r->source;
        r->source = w->number[name];
        if (r->source == 0 && !(w->mark[name] & READ_UNDECLARED)) {
            w->mark[name] |= READ_UNDECLARED;
            w->steps++;
        }
    }
}

/* The walk from a relation: its answer settles the whole path. */
static inline void settle(struct work *w, uint32_t from)
{
    uint32_t at = from, length = 0;
    for (; w->relation[at].chain == OPEN; at = w->relation[at].source) {
        w->relation[at].chain = ON_PATH;
        w->path[length++] = (uint16_t)at;
    }
    uint16_t list = w->relation[at].chain == SETTLED ? w->relation[at].list : 0;
    for (uint32_t i = 0; i < length; i++) {
        w->relation[w->path[i]].chain = SETTLED;
        w->relation[w->path[i]].list = list;
    }
}

static inline uint16_t kind_at(const struct work *w, uint32_t list, uint32_t slot)
{
    if (list == 0 || slot >= value_of(w->words[list])) {
        return NO_KIND;
    }
    return (uint16_t)value_of(w->words[list + 1 + slot]);
}

/* The entity of a derivation takes the kind at the current slot. */
static inline void take(struct work *w, uint32_t entity, uint16_t kind)
{
    if (!(w->mark[entity] & TAKES)) {
        w->mark[entity] |= TAKES;
        w->stands_for[entity] = kind;
    } else if (!(w->mark[entity] & TAKES_SEVERAL) && w->stands_for[entity] != kind) {
        w->mark[entity] |= TAKES_SEVERAL;
        w->stands_for[entity] = (uint16_t)entity;
    }
}

/* What a settled relation has at its slots. */
static inline void know_kinds(struct work *w, uint32_t number)
{
    struct relation *r = &w->relation[number];
    if (r->form != DERIVED_RELATION) {
        return;
    }
    uint32_t entity = value_of(w->words[r->slots_at + 2]);
    r->kind[0] = kind_at(w, r->list, value_of(r->slots[0]));
    r->kind[1] = kind_at(w, r->list, value_of(r->slots[1]));
    w->entity[number] = r->kind[1] == NO_KIND ? 0 : r->kind[1];
    if (entity != NONE && r->kind[0] != NO_KIND) {
        take(w, entity, r->kind[0]);
    }
}

static void settle_all(struct work *w)
{
    for (uint32_t e = 0; e < w->names; e++) {
        w->stands_for[e] = (uint16_t)e;
    }
    link_all(w);
    for (uint32_t i = 1; i <= w->relations; i++) {
        settle(w, i);
        know_kinds(w, i);
    }
}

/* ---- resolving */

/* The first defaulted name that is refused by 9, if there is one. */
static int defaulted_refused(struct work *w)
{
    uint32_t end = 3 + value_of(w->words[2]);
    for (uint32_t at = 3; at < end; at++) {
        uint32_t name = value_of(w->words[at]);
        const struct relation *r = &w->relation[w->number[name]];
        if (r->form == DERIVED_RELATION && r->kind[0] == r->kind[1] && r->kind[0] != NO_KIND) {
            refuse(w, COGUNWA_EQUAL_KINDS, r->place, name);
            return 1;
        }
    }
    return 0;
}

/* The record that cites a noted node: the place of its name, which its origin follows. */
static uint32_t citing(const struct work *w, uint32_t inside)
{
    while (inside >= FIRST_NODE) {
        inside = w->note[inside - FIRST_NODE].inside;
    }
    return inside >= FIRST_RULE ? w->rule[inside - FIRST_RULE] : w->relation[inside].place;
}

SELDOM static void refuse_note(struct work *w, uint32_t number, const struct note *note, uint32_t other)
{
    w->answer = answer_of(number, note->place, value_of(w->words[citing(w, note->inside)]), other);
}

static inline void set_slots(uint32_t *node, uint32_t current, uint32_t related)
{
    node[1] = word_of(NODE_CURRENT, current);
    node[2] = word_of(NODE_RELATED, related);
}

static inline void supply_slots(uint32_t *node, const struct relation *r)
{
    node[1] = r->slots[0];
    node[2] = r->slots[1];
}

/* An aggregate's slots: the kind that results, or NO_KIND where the direction is open. */
static inline uint16_t turn_aggregate(const struct work *w, uint32_t *node, uint32_t entity)
{
    uint32_t number = w->number[value_of(node[0])];
    const struct relation *r = &w->relation[number];
    if (r->form == DERIVED_RELATION) {
        supply_slots(node, r);
        return w->entity[number];
    }
    if (r->form != TYPED) {
        return 0;
    }
    uint16_t kind = w->stands_for[entity];
    if (r->kind[0] == kind) {
        set_slots(node, 0, 1);
        return r->kind[1] == kind ? NO_KIND : r->kind[1];
    }
    if (r->kind[1] == kind) {
        set_slots(node, 1, 0);
        return r->kind[0];
    }
    uint32_t related = value_of(node[2]);
    return related < 2 ? r->kind[related] : 0;
}

/* The slots of a RelationMember: whether the direction is not open. NO_KIND is unlike both kinds of a typed relation. */
static inline int turn_member(const struct work *w, uint32_t *node, const struct relation *membership)
{
    const struct relation *r = &w->relation[w->number[value_of(node[0])]];
    uint16_t current = membership->kind[0], related = membership->kind[1];
    if (r->form == DERIVED_RELATION) {
        supply_slots(node, r);
    } else if (r->form == TYPED && r->kind[0] == current && r->kind[1] == related) {
        if (current == related) {
            return 0;
        }
        set_slots(node, 0, 1);
    } else if (r->form == TYPED && r->kind[0] == related && r->kind[1] == current) {
        set_slots(node, 1, 0);
    }
    return 1;
}

/* The only declaration of an input in the blocks of an origin: its place, or 0 for a refusal, whose number is set. */
static uint32_t declaration(const struct work *w, uint32_t origin, uint32_t name, uint32_t *number)
{
    uint32_t at = w->blocks_at + 1, found = 0, declarations = 0;
    for (uint32_t blocks = value_of(w->words[w->blocks_at]); blocks > 0; blocks--) {
        uint32_t items = value_of(w->words[at + 1]);
        int cited = value_of(w->words[at]) == origin;
        at += 2;
        if (items == NONE) {
            if (cited) {
                *number = COGUNWA_NO_SEQUENCE;
                return 0;
            }
            continue;
        }
        for (; items > 0; items--, at += 3) {
            if (cited && value_of(w->words[at]) == name) {
                found = at;
                declarations++;
            }
        }
    }
    *number = COGUNWA_NOT_DECLARED_ONCE;
    return declarations == 1 ? found : 0;
}

/* Why an OnlyRelated is refused after its aggregate step, or 0. */
static uint32_t only_related_refused(const struct work *w, const struct note *note, uint16_t owner)
{
    uint32_t asked = w->words[note->place + 3], number;
    if (kind_of(asked) == DERIVED_INPUT) {
        return COGUNWA_DERIVED_INPUT;
    }
    uint32_t origin = value_of(w->words[citing(w, note->inside) + 1]);
    uint32_t at = declaration(w, origin, value_of(asked), &number);
    if (at == 0) {
        return number;
    }
    if (value_of(w->words[at + 1]) == 0) {
        return COGUNWA_NOT_BOOLEAN;
    }
    return owner == 0 || value_of(w->words[at + 2]) != owner ? COGUNWA_WRONG_OWNER : 0;
}

/* Turns a noted node; says whether it is not refused. */
static inline int turn(struct work *w, uint32_t i)
{
    const struct note *note = &w->note[i];
    uint32_t *node = &w->words[note->place];
    if (kind_of(node[0]) == RELATION_MEMBER) {
        const struct relation *membership = &w->relation[note->inside];
        if (!turn_member(w, node, membership)) {
            refuse_note(w, COGUNWA_DIRECTION_OPEN, note, membership->kind[0]);
            return 0;
        }
        return 1;
    }
    uint32_t entity = w->entity[note->inside];
    uint16_t kind = turn_aggregate(w, node, entity);
    if (kind == NO_KIND) {
        refuse_note(w, COGUNWA_DIRECTION_OPEN, note, entity);
        return 0;
    }
    w->entity[FIRST_NODE + i] = kind;
    if (kind_of(node[0]) == ONLY_RELATED) {
        uint32_t number = only_related_refused(w, note, kind);
        if (number != 0) {
            refuse_note(w, number, note, value_of(node[3]));
            return 0;
        }
    }
    return 1;
}

static int turn_all(struct work *w, uint32_t from, uint32_t to)
{
    for (uint32_t i = from; i < to; i++) {
        if (!turn(w, i)) {
            return 0;
        }
    }
    return 1;
}

/* ---- stamping and writing */

static inline int list_is_empty(const struct work *w, uint32_t list) { return value_of(w->words[list]) == 0; }

static inline int is_stamped(const struct work *w, const struct relation *r)
{
    if (r->form != DERIVED_RELATION || !list_is_empty(w, r->slots_at + 4u)) {
        return 0;
    }
    if (r->kind[0] == NO_KIND || r->kind[0] == r->kind[1]) {
        return 0;
    }
    int named = w->mark[value_of(w->words[r->place])] & NAMED_BY_ATOM;
    return !list_is_empty(w, r->place + 3u) || !(named || r->holds_atoms);
}

/* How many words stamping adds; the list of a relation that is not stamped is forgotten. */
static uint32_t stamp_all(struct work *w)
{
    uint32_t more = 0;
    for (uint32_t i = 1; i <= w->relations; i++) {
        struct relation *r = &w->relation[i];
        if (is_stamped(w, r)) {
            uint32_t kinds = value_of(w->words[r->list]);
            more += list_is_empty(w, r->place + 3u) ? 2 * kinds : kinds;
        } else {
            r->list = 0;
        }
    }
    return more;
}

static inline uint8_t *put(uint8_t *out, const uint32_t *words, uint32_t count)
{
    copy(out, words, 4 * (size_t)count);
    return out + 4 * (size_t)count;
}

static inline uint8_t *put_list(uint8_t *out, uint32_t kind, const uint32_t *list)
{
    uint32_t count = value_of(list[0]), head = word_of(kind, count);
    return put(put(out, &head, 1), list + 1, count);
}

/* Writes the records in their order, a stamped relation's lists in the place of its empty ones. */
static void write_all(const struct work *w, uint8_t *out, uint32_t total)
{
    const uint32_t *from = w->words + 1, *end = w->words + w->length;
    uint32_t head = word_of(TOTAL, total);
    out = put(out, &head, 1);
    for (uint32_t i = 1; i <= w->relations; i++) {
        const struct relation *r = &w->relation[i];
        if (r->list == 0) {
            continue;
        }
        const uint32_t *list = w->words + r->list;
        const uint32_t *list_9 = w->words + r->place + 3, *list_21 = w->words + r->slots_at + 4;
        if (value_of(*list_9) == 0) {
            out = put_list(put(out, from, (uint32_t)(list_9 - from)), LIST_9, list);
            from = list_9 + 1;
        }
        out = put_list(put(out, from, (uint32_t)(list_21 - from)), LIST_21, list);
        from = list_21 + 1;
    }
    put(out, from, (uint32_t)(end - from));
}

/* ---- the operations */

/* As cogunwa_check. */
uint64_t floor_check(const uint8_t *pack, size_t pack_len)
{
    struct work w;
    return read_pack(&w, pack, pack_len) ? answer_of(COGUNWA_OK, 0, 1, 0) : w.answer;
}

/* As cogunwa_resolve. */
uint64_t floor_resolve(const uint8_t *pack, size_t pack_len, uint8_t *out, size_t out_len)
{
    struct work w;
    if (!read_pack(&w, pack, pack_len)) {
        return w.answer;
    }
    settle_all(&w);
    if (defaulted_refused(&w)) {
        return w.answer;
    }
    if (!turn_all(&w, w.notes_of_relations, w.notes) || !turn_all(&w, 0, w.notes_of_relations)) {
        return w.answer;
    }
    uint32_t total = w.length + stamp_all(&w);
    if (total > MOST_WORDS || total > out_len / 4) {
        return answer_of(COGUNWA_NO_ROOM, 0, 0, 0);
    }
    write_all(&w, out, total);
    return answer_of(COGUNWA_OK, 0, total, w.steps);
}
