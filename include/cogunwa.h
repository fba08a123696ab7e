/* Cogunwa's operations on rule packs, for C99 and C++11 and later.
 *
 * Link with libcogunwa, which `tools/install PREFIX` installs with this header (`pkg-config --libs cogunwa`).
 *
 * A pack is handed over as bytes, four a word, low byte first. A word's kind is its high byte, its
 * value the other three. "Place" is a word's index in the pack, from 0.
 *
 * Every function takes any bytes and any lengths, allocates nothing, keeps nothing between calls
 * and may be called from several threads at once. A pointer may be null where its length is 0; `out`
 * shares no byte with `pack`. A call takes up to COGUNWA_STACK_BYTES of its thread's stack.
 *
 * Every function returns one 64-bit number, its answer:
 *
 *   bits  0 to  5   number: 0, or the number of a refusal
 *   bits  6 to 19   place
 *   bits 20 to 51   name, or the value where the number is 0
 *   bits 52 to 63   other, or the steps where the number is 0
 *
 * A refusal changes no byte of `out`. `enum cogunwa_refusal` has the numbers, and which of the fields
 * they fill; all other fields are 0.
 *
 * Of several that hold, 1 comes first, then the one at the leftmost word (at one word 3, 2, 5, 4, 6, 7
 * in this order), then 8. Resolve's own come after them: 9 of the lowest such name; then the first of
 * 10 to 15 in the rules, by the order of rules, bodies and nodes, and at one node by the number; then
 * the first in the predicates of relations, in record order. 16 and 17 come last.
 *
 * A relation's kinds are the names of one list in the pack, its own or that of the relation that it
 * inherits from. They are answered as a place: the index of the list's count word, which is of kind 9
 * or 21; the names are the values of as many words behind it. Place 0 means that it has no kinds.
 *
 * docs/FORMAT.md has the layout of packs.
 */
#ifndef COGUNWA_H
#define COGUNWA_H

#include <stddef.h>
#include <stdint.h>

/* The version of this header and of the library beside it. It is set here alone: tests/package holds the
 * other places to it. COGUNWA_VERSION is the text, "MAJOR.MINOR.PATCH". */
#define COGUNWA_VERSION_MAJOR 0
#define COGUNWA_VERSION_MINOR 2
#define COGUNWA_VERSION_PATCH 0
#define COGUNWA_VERSION COGUNWA_DOTTED_(COGUNWA_VERSION_MAJOR, COGUNWA_VERSION_MINOR, COGUNWA_VERSION_PATCH)
#define COGUNWA_DOTTED_(major, minor, patch) COGUNWA_TEXT_(major) "." COGUNWA_TEXT_(minor) "." COGUNWA_TEXT_(patch)
#define COGUNWA_TEXT_(number) #number

/* The limits. A pack of more is refused, and no operation writes more. */
#define COGUNWA_MIN_WORDS 6u
#define COGUNWA_MAX_WORDS 8192u
#define COGUNWA_MAX_BYTES 32768u /* of a pack or a result: four a word */
#define COGUNWA_MAX_NAMES 4096u  /* so many words have the filtered tables at most */
#define COGUNWA_MAX_RELATIONS 512u
#define COGUNWA_MAX_RULES 1024u
#define COGUNWA_MAX_BLOCKS 64u
#define COGUNWA_MAX_DEPTH 32u

/* The stack that a call takes at most, in bytes, whatever the pack: call from a thread that has as much left.
 * rust/tests/stack.rs measures it over the packs that take most. */
#define COGUNWA_STACK_BYTES 196608u

/* "None" in a word's value: what direct and innermost say of a name for which they have none. */
#define COGUNWA_NONE 16777215u

/* Has the compiler warn where an answer is not looked at. */
#if defined(__GNUC__) || defined(__clang__)
#define COGUNWA_MUST_USE __attribute__((warn_unused_result))
#else
#define COGUNWA_MUST_USE
#endif

#ifdef __cplusplus
extern "C" {
#endif

/* The numbers of refusals, and the fields that they fill. Later versions may have more. */
enum cogunwa_refusal {
    COGUNWA_OK = 0,
    COGUNWA_WRONG_LENGTH = 1,
    COGUNWA_WRONG_KIND = 2,       /* place: the word */
    COGUNWA_ENDED = 3,            /* place: the pack's length in words */
    COGUNWA_WRONG_VALUE = 4,      /* place: the word */
    COGUNWA_TOO_DEEP = 5,         /* place: the node */
    COGUNWA_NOT_RISING = 6,       /* place: the word */
    COGUNWA_NAME_USED = 7,        /* place: the word, name: the relation */
    COGUNWA_LEFT_OVER = 8,        /* place: the first of the words */
    COGUNWA_EQUAL_KINDS = 9,      /* place: its kind 6 word, name: the relation */
    COGUNWA_DIRECTION_OPEN = 10,  /* place: the node, name: the citing rule or relation,
                                     other: the entity, or at RelationMember the kind */
    /* Of an OnlyRelated node; each has place: the node, name: the citing rule or relation,
       other: the input or derived name. */
    COGUNWA_DERIVED_INPUT = 11,
    COGUNWA_NO_SEQUENCE = 12,
    COGUNWA_NOT_DECLARED_ONCE = 13,
    COGUNWA_NOT_BOOLEAN = 14,
    COGUNWA_WRONG_OWNER = 15,
    COGUNWA_NO_ROOM = 16,
    COGUNWA_NOT_A_NAME = 17       /* name: that name */
};

/* What a refusal's number means. */
static inline const char *cogunwa_refusal_text(uint32_t number)
{
    switch (number) {
    case COGUNWA_OK: return "no refusal";
    case COGUNWA_WRONG_LENGTH: return "the bytes are not whole words, or not 6 to 8,192 of them";
    case COGUNWA_WRONG_KIND: return "a word is of the wrong kind";
    case COGUNWA_ENDED: return "the pack has ended where one more word is due";
    case COGUNWA_WRONG_VALUE: return "a word has a value that is not allowed";
    case COGUNWA_TOO_DEEP: return "a tree node is at depth 33";
    case COGUNWA_NOT_RISING: return "a defaulted name is not above the one before";
    case COGUNWA_NAME_USED: return "a relation has a name that was used before";
    case COGUNWA_LEFT_OVER: return "words are left over after the last block";
    case COGUNWA_EQUAL_KINDS: return "a defaulted relation has equal kinds at its current and related slot";
    case COGUNWA_DIRECTION_OPEN: return "the direction is open: both slots fit";
    case COGUNWA_DERIVED_INPUT: return "OnlyRelated asks for a derived name";
    case COGUNWA_NO_SEQUENCE: return "OnlyRelated asks for an input, but a block of the citing origin is no sequence";
    case COGUNWA_NOT_DECLARED_ONCE: return "OnlyRelated asks for an input that is not declared exactly once in the blocks of the citing origin";
    case COGUNWA_NOT_BOOLEAN: return "OnlyRelated asks for an input that is not Boolean";
    case COGUNWA_WRONG_OWNER: return "OnlyRelated asks for an input of another entity than the related kind, or there is no such kind";
    case COGUNWA_NO_ROOM: return "the output has too few words, or the result would have over 8,192";
    case COGUNWA_NOT_A_NAME: return "a name handed over is not one of the pack's";
    default: return "a refusal that this version of the header does not know";
    }
}

/* The version that a program is compiled with. */
static inline const char *cogunwa_version(void) { return COGUNWA_VERSION; }

/* Check: whether the bytes are a pack. Value 1 (yes), or a refusal of 1 to 8. */
COGUNWA_MUST_USE uint64_t cogunwa_check(const uint8_t *pack, size_t pack_len);

/* Rewrite: reads the pack's records and writes them again to `out`.
 * Value: the number of words written, which is the pack's; or Check's refusal; or 16 where `out`
 * has fewer whole words than the pack. Bytes of `out` past those words stay as they are. */
COGUNWA_MUST_USE uint64_t cogunwa_rewrite(const uint8_t *pack, size_t pack_len, uint8_t *out, size_t out_len);

/* All kinds: writes to `out`, one word for each relation in record order, the place of its kinds, or 0.
 * Value: the number of words written, which is the number of relations. Steps: the number of names
 * read on the way, declared or not, each once. Or Check's refusal; or 16 where `out` has fewer whole
 * words than the pack has relations. Bytes of `out` past those words stay as they are. */
COGUNWA_MUST_USE uint64_t cogunwa_all_kinds(const uint8_t *pack, size_t pack_len, uint8_t *out, size_t out_len);

/* Resolve: writes the whole pack to `out` with its directions settled: the records in the same order,
 * the slots of aggregates and RelationMember nodes set by the kinds of their relations, the lists of
 * relations stamped where that is due, the first word the result's own length, all else as it stood.
 * Value: the number of words written; a stamped list makes the result longer than the pack. Steps: as of
 * All kinds. Or Check's refusal; or 9 to 15; or 16 where the result would have over 8,192 words or more
 * than `out` has whole words. Bytes of `out` past those words stay as they are. */
COGUNWA_MUST_USE uint64_t cogunwa_resolve(const uint8_t *pack, size_t pack_len, uint8_t *out, size_t out_len);

/* Kinds of one name: value: the place of the name's kinds, or 0, also for a name that no relation has;
 * or Check's refusal; or 17 where the name is not below N. */
COGUNWA_MUST_USE uint64_t cogunwa_kinds_of(const uint8_t *pack, size_t pack_len, uint32_t name);

/* Lean: value 1 where one or more sources (12) and steps of paths (14) lead from the name `a` to the
 * name `b`, in any mixture, otherwise 0; lists of kinds do not matter. A name leans on itself only
 * round a ring. A name that no relation has can be leant on, and leans on nothing. Or Check's
 * refusal; or 17 where a name is not below N, for `a` before `b`. */
COGUNWA_MUST_USE uint64_t cogunwa_lean(const uint8_t *pack, size_t pack_len, uint32_t a, uint32_t b);

/* The filtered tables: each writes to `out` N words, one for each name e from 0 on, what it says of e
 * as an entity. e takes the kind at the current slot of each derivation whose entity is e, where the
 * relation has kinds and the slot is in range. "None" is 16777215 (COGUNWA_NONE).
 * Value: the number of words written, which is N; or Check's refusal; or 16 where `out` has fewer
 * whole words than N. Bytes of `out` past those words stay as they are.
 *
 * Direct: the one kind that e takes, however often; none where it takes none, or several.
 * Innermost: where direct leads from e, step by step, until a name without direct or one whose direct
 * is itself; none where e has no direct, and where the steps go round in a longer ring.
 * Alias: 1 where e takes a kind other than e, otherwise 0.
 * Unresolved: 1 where some derivation has the entity e and e takes no kind, otherwise 0. */
COGUNWA_MUST_USE uint64_t cogunwa_direct(const uint8_t *pack, size_t pack_len, uint8_t *out, size_t out_len);
COGUNWA_MUST_USE uint64_t cogunwa_innermost(const uint8_t *pack, size_t pack_len, uint8_t *out, size_t out_len);
COGUNWA_MUST_USE uint64_t cogunwa_alias(const uint8_t *pack, size_t pack_len, uint8_t *out, size_t out_len);
COGUNWA_MUST_USE uint64_t cogunwa_unresolved(const uint8_t *pack, size_t pack_len, uint8_t *out, size_t out_len);

/* The fields of an answer. */
static inline uint32_t cogunwa_number(uint64_t answer) { return (uint32_t)(answer & 0x3F); }
static inline uint32_t cogunwa_place(uint64_t answer) { return (uint32_t)(answer >> 6 & 0x3FFF); }
static inline uint32_t cogunwa_name(uint64_t answer) { return (uint32_t)(answer >> 20 & 0xFFFFFFFFu); }
static inline uint32_t cogunwa_other(uint64_t answer) { return (uint32_t)(answer >> 52); }

/* The same bits of an answer whose number is 0. Only All kinds and Resolve count steps; of the
 * others they are 0. */
static inline uint32_t cogunwa_value(uint64_t answer) { return cogunwa_name(answer); }
static inline uint32_t cogunwa_steps(uint64_t answer) { return cogunwa_other(answer); }

/* The word at a place of bytes, such as an operation has written. */
static inline uint32_t cogunwa_word_at(const uint8_t *bytes, size_t place)
{
    const uint8_t *at = bytes + 4 * place;
    return (uint32_t)at[0] | (uint32_t)at[1] << 8 | (uint32_t)at[2] << 16 | (uint32_t)at[3] << 24;
}

/* The library wants pointers that are not null, and an empty std::vector may hand over a null pointer. So each
 * operation's name stands for a function that puts another pointer where the length is 0. */
static inline const uint8_t *cogunwa_in_(const uint8_t *pack, size_t pack_len)
{
    static const uint8_t nothing = 0;
    return pack_len == 0 ? &nothing : pack;
}

static inline uint8_t *cogunwa_out_(uint8_t *out, size_t out_len)
{
    static uint8_t nothing = 0;
    return out_len == 0 ? &nothing : out;
}

COGUNWA_MUST_USE static inline uint64_t cogunwa_check_(const uint8_t *pack, size_t pack_len)
{
    return cogunwa_check(cogunwa_in_(pack, pack_len), pack_len);
}

COGUNWA_MUST_USE static inline uint64_t cogunwa_kinds_of_(const uint8_t *pack, size_t pack_len, uint32_t name)
{
    return cogunwa_kinds_of(cogunwa_in_(pack, pack_len), pack_len, name);
}

COGUNWA_MUST_USE static inline uint64_t cogunwa_lean_(const uint8_t *pack, size_t pack_len, uint32_t a, uint32_t b)
{
    return cogunwa_lean(cogunwa_in_(pack, pack_len), pack_len, a, b);
}

#define COGUNWA_WRITES_(operation)                                                                   \
    COGUNWA_MUST_USE static inline uint64_t operation##_(const uint8_t *pack, size_t pack_len,       \
                                                         uint8_t *out, size_t out_len)               \
    {                                                                                                \
        return operation(cogunwa_in_(pack, pack_len), pack_len, cogunwa_out_(out, out_len), out_len); \
    }
COGUNWA_WRITES_(cogunwa_rewrite)
COGUNWA_WRITES_(cogunwa_all_kinds)
COGUNWA_WRITES_(cogunwa_resolve)
COGUNWA_WRITES_(cogunwa_direct)
COGUNWA_WRITES_(cogunwa_innermost)
COGUNWA_WRITES_(cogunwa_alias)
COGUNWA_WRITES_(cogunwa_unresolved)
#undef COGUNWA_WRITES_

#define cogunwa_check cogunwa_check_
#define cogunwa_rewrite cogunwa_rewrite_
#define cogunwa_all_kinds cogunwa_all_kinds_
#define cogunwa_resolve cogunwa_resolve_
#define cogunwa_kinds_of cogunwa_kinds_of_
#define cogunwa_lean cogunwa_lean_
#define cogunwa_direct cogunwa_direct_
#define cogunwa_innermost cogunwa_innermost_
#define cogunwa_alias cogunwa_alias_
#define cogunwa_unresolved cogunwa_unresolved_

#ifdef __cplusplus
}
#endif

#endif
