/* The form store of a timing box: one string of bytes that holds a DTD and the finish lists under it. These are the
 * calls that a box links; `tools/library` proves them and writes target/staticlib/libformstore.a.
 *
 * A STORE is what a box keeps. It begins as FORMSTORE_FRESH, or as what formstore_read_text() makes of a printed text.
 * A change reads the store in one buffer and writes the new store into another one, so that a refusal, or a crash
 * between two calls, leaves the old store whole:
 *
 *     static const uint8_t fresh[FORMSTORE_FRESH_LENGTH] = FORMSTORE_FRESH;
 *     static uint8_t one[FORMSTORE_LONGEST];
 *     struct formstore_answer answer;
 *     answer = formstore_create_definition(fresh, sizeof fresh, (const uint8_t *)"race", 4,
 *                                          FORMSTORE_KIND_COMPLEX, one, sizeof one);
 *     if (answer.number == FORMSTORE_ACCEPTED)
 *         ...                   the new store is the first answer.length bytes of `one`; the next call writes another
 *
 * THE RULE that nothing can check for a caller: each pointer has as much as its length says, bytes or, for a place,
 * numbers (uint32_t, aligned as such); none is NULL, even where the length is 0; and `out` overlaps none of the others:
 * not `store`, and no name, text, value or place. With it, and with enough stack, no call reads or writes outside its
 * buffers and every call ends, whatever the bytes and numbers are, a damaged store included.
 *
 * STACK: FORMSTORE_STACK bytes are enough for any call. That is measured and not proved: tools/stack runs every call on
 * stores that were made to need the most. Give each thread or task that makes calls as much, and what your own frames
 * need: a stack that overflows where no guard page stands writes over other memory. The calls use no heap and no memory
 * of their own; calls in two threads do not meet unless their buffers do.
 *
 * PLATFORM: the archive is for x86-64 with pointers of 64 bits, ELF objects and the System V calling convention, as on
 * Linux. It needs memcpy and memset, and nothing else.
 *
 * WHAT A STORE HOLDS
 *   Definition  an <!ELEMENT ..>: a name, a kind, and if COMPLEX a model. The calls take it by its index: definitions
 *               count from 0 as they were created, and those behind a destroyed one move up.
 *   Model       which children an element has: a list of particles, each an element or a group of particles, each with
 *               a quantifier. (bib,(club|team)?,time*) has three members; the second is a CHOICE of two.
 *   Attribute   an <!ATTLIST ..> of its owner, a definition. The calls take it by its index: from 0, by owner, then the
 *               oldest first.
 *   Document    a finish list: an element with all below it. Elements, their attributes and their texts are rows, and
 *               each row has a serial that no other row of the store ever had or will have: the first row made gets 1,
 *               and a call that makes rows gives them the next ones in document order. The calls take elements, and the
 *               look-up attributes and texts, by serial. formstore_next_serial() below reads the next one of a store.
 *
 * PLACE: which particle of a model is meant, one to five numbers. All but the last pick a group, members counting from
 * 1, and go on inside it; the last picks a member. In (bib,(club|team)?,time*):
 *     1    bib          2    the group       3    time*
 *     2 1  club         2 2  team
 * Where an element is inserted, the last number says after which member, and 0 before the first: 0 is before bib, 3 is
 * after time*, 2 0 is in the group before club, 2 2 in it after team. `place_length` says how many numbers there are.
 *
 * TEXT: what new elements hold. Where a change makes an element, it makes all that the DTD wants in it, its filling:
 * REQUIRED attributes with their fill, the members that may not be absent (of a CHOICE the first), and `text` as the
 * text of every PCDATA element. Changes 3, 5 and 8 want one that is not empty where the new quantifier makes children
 * necessary; 11 and 12 take an empty one. Where it is not used, pass "" and 0.
 *
 * SPINE: the top list of a model, and each LIST without quantifier that stands in a list of the spine. Every element of
 * the owner goes through such a list exactly once, so only there can children be made or taken when a quantifier asks
 * for it; elsewhere such a change is refused (13) as long as elements of the owner exist. */
#ifndef FORMSTORE_H
#define FORMSTORE_H

#include <stddef.h>
#include <stdint.h>

#if !defined(__x86_64__) || !defined(__LP64__)
#error "libformstore.a is for x86-64 with pointers of 64 bits"
#endif

#ifdef __cplusplus
extern "C" {
#endif

/* The stack in bytes that is enough for any call. */
#define FORMSTORE_STACK 69632

/* The ceilings of a store. Depth: the groups around a particle. */
#define FORMSTORE_MAX_DEFINITIONS 64
#define FORMSTORE_MAX_PARTICLES 256
#define FORMSTORE_MAX_ATTRIBUTES 64
#define FORMSTORE_MAX_ROWS 4096
#define FORMSTORE_MAX_MODEL_DEPTH 4
#define FORMSTORE_MAX_PLACE 5
#define FORMSTORE_MAX_NAME 16
#define FORMSTORE_MAX_VALUE 32

/* No store is longer: a header of 40 bytes, 20 for each definition, 4 for each particle, 52 for each attribute and 44
 * for each row. A buffer of this length is never too short for a change. */
#define FORMSTORE_LONGEST 185896

/* No printed text is longer. A definition prints at most 38 bytes besides its particles, a particle 18 (a name of 16, a
 * mark and a comma), an attribute 253 (two names, a value of 32 bytes that are all escaped to 6, and 29 more) and a row
 * 212 (an attribute's: a name, such a value and 4 more). 64 * 38 + 256 * 18 + 64 * 253 + 4096 * 212. */
#define FORMSTORE_LONGEST_TEXT 891584

/* A store without definitions and documents, as the bytes of an array: version 1, next serial 1, four empty bodies. */
#define FORMSTORE_FRESH_LENGTH 40
#define FORMSTORE_FRESH                                                                                                \
    {                                                                                                                  \
        1, 0, 0, 0, 1, 0, 0, 0,      /* version, next serial */                                                        \
            40, 0, 0, 0, 0, 0, 0, 0, /* offset and count of the definitions, */                                        \
            40, 0, 0, 0, 0, 0, 0, 0, /* of the particles, */                                                           \
            40, 0, 0, 0, 0, 0, 0, 0, /* of the attributes, */                                                          \
            40, 0, 0, 0, 0, 0, 0, 0  /* of the rows */                                                                 \
    }

/* The refusals, in words for all calls that give them. Of those that apply the lowest number is given, and 19 before
 * 18. */
enum formstore_refusal {
    FORMSTORE_ACCEPTED = 0,
    FORMSTORE_BAD_STORE = 1,   /* the store does not pass the check */
    FORMSTORE_BAD_NAME = 2,    /* a name has 1 to 16 bytes, first a letter or _, then also digits, - and .; a new one
                                * does not begin with x, m, l, each in either case, which XML 1.0 reserves */
    FORMSTORE_BAD_VALUE = 3,   /* a text or value has at most 32 bytes, each from blank to ~ (20 to 7E) */
    FORMSTORE_BAD_CODE = 4,    /* a kind, sort or quantifier is none of its enum's */
    FORMSTORE_TAKEN = 5,       /* the definition, or an attribute of this owner, exists under this name */
    FORMSTORE_UNKNOWN = 6,     /* no definition or attribute has this index; 14, 15: it is another definition's */
    FORMSTORE_NO_ROW = 7,      /* no element has this serial; 15: the element does not have this attribute */
    FORMSTORE_NO_PLACE = 8,    /* nothing is at the place, or an element where a group is meant, or the reverse;
                                  12: a child number past the children; 6: a count of 0 or past the list */
    FORMSTORE_WRONG_KIND = 9,  /* 3: the owner is not COMPLEX; 16: the element is not PCDATA */
    FORMSTORE_IN_USE = 10,     /* 2: it stands in a model or at the root of a document; 3: already in this model */
    FORMSTORE_ROUND = 11,      /* 3: it is the owner itself, or can have the owner below it */
    FORMSTORE_DEFAULT = 12,    /* no text where one is needed (3, 5, 8), no fill for REQUIRED, or a value for IMPLIED */
    FORMSTORE_OFF_SPINE = 13,  /* elements of the owner exist, and 3: NONE or PLUS in a LIST off the spine; 5, 8: off
                                  the spine none or several are forbidden that were allowed; 8: several, anywhere */
    FORMSTORE_GROUPING = 14,   /* 4: the last member of a group; 6: over one member, and another sort than their list's;
                                  7: a group with a quantifier, or as in 6 */
    FORMSTORE_NO_MATCH = 15,   /* 12 to 15: an element would not match its definition; 4: from a CHOICE that must then
                                  have another member, while elements of the owner exist */
    FORMSTORE_CEILING = 16,    /* a ceiling would be passed */
    FORMSTORE_SERIALS = 17,    /* the next serial would pass 4,294,967,295 */
    FORMSTORE_BUFFER = 18,     /* `out` is too short; FORMSTORE_LONGEST or FORMSTORE_LONGEST_TEXT never is */
    FORMSTORE_BAD_TEXT = 19    /* no store that passes the check prints this text */
};

/* What the elements of a definition hold. */
enum formstore_kind {
    FORMSTORE_KIND_EMPTY = 0,  /* nothing */
    FORMSTORE_KIND_PCDATA = 1, /* one text */
    FORMSTORE_KIND_COMPLEX = 2 /* elements, as the model says; none while it is empty */
};

/* How often a particle stands. */
enum formstore_quantifier {
    FORMSTORE_QUANTIFIER_NONE = 0,  /* once, printed without a mark */
    FORMSTORE_QUANTIFIER_QMARK = 1, /* at most once, ? */
    FORMSTORE_QUANTIFIER_STAR = 2,  /* any number of times, * */
    FORMSTORE_QUANTIFIER_PLUS = 3   /* at least once, + */
};

/* What a group is. */
enum formstore_group {
    FORMSTORE_GROUP_LIST = 1,  /* all members in order, (a,b) */
    FORMSTORE_GROUP_CHOICE = 2 /* one of them, (a|b) */
};

/* What an attribute is. */
enum formstore_attribute {
    FORMSTORE_ATTRIBUTE_IMPLIED = 0,  /* may be absent; `value` is empty */
    FORMSTORE_ATTRIBUTE_REQUIRED = 1, /* is always there; `value` is the fill for elements made later, not empty */
    FORMSTORE_ATTRIBUTE_FIXED = 2     /* may be absent, and has no other value than `value` */
};

/* What a call that writes answers: 0 and the length of what was written, or the number of a refusal and 0. A refusal
 * changes no byte of `out`; bytes past the length keep their content. */
struct formstore_answer {
    uint32_t number;
    size_t length;
};

/* What the look-up answers: 0 and where the value starts in the store, or a refusal with start and length 0. */
struct formstore_found {
    uint32_t number;
    size_t start;
    size_t length;
};

/* The serial that the next row gets, of a store that passes; so the rows that a change made are from this of the old
 * store to one below this of the new one. */
static inline uint32_t formstore_next_serial(const uint8_t *store)
{
    return (uint32_t)store[4] | (uint32_t)store[5] << 8 | (uint32_t)store[6] << 16 | (uint32_t)store[7] << 24;
}

/* 0 if the bytes are a store, whose DTD is well-formed and all of whose lists conform to it; 1 if they are not. */
uint32_t formstore_check(const uint8_t *store, size_t store_length);

/* Where the value of the attribute or text with this serial stands. Refuses with 1, and with 7 where no attribute or
 * text has the serial. */
struct formstore_found formstore_look_up(const uint8_t *store, size_t store_length, uint32_t serial);

/* Prints the store as text: the DTD, then a line for each document; each line ends in a line feed. Refuses with 1 and
 * 18. */
struct formstore_answer formstore_print(const uint8_t *store, size_t store_length, uint8_t *out, size_t out_length);

/* Reads a text as formstore_print() writes it, to the byte, and writes a store that prints it. That need not be the
 * store which was printed: rows have serials from 1 in document order and the next serial follows them, the fill of
 * REQUIRED attributes is -, a definition printed EMPTY is EMPTY, and a group of one member is a LIST. The empty text
 * gives a fresh store. Refuses with 19 and 18. */
struct formstore_answer formstore_read_text(const uint8_t *text, size_t text_length, uint8_t *out, size_t out_length);

/* The sixteen changes. Any uint32_t may be passed for a number. Each says with which numbers it refuses besides 1 and
 * 18, and which rows it makes or takes; where it says nothing of rows, it leaves them as they are. */

/* 1. Appends a definition. Refuses with 2, 4, 5 and 16. */
struct formstore_answer formstore_create_definition(const uint8_t *store, size_t store_length,
                                                    const uint8_t *name, size_t name_length, uint32_t kind,
                                                    uint8_t *out, size_t out_length);

/* 2. Destroys a definition, with its model and attributes. Refuses with 6 and 10. */
struct formstore_answer formstore_destroy_definition(const uint8_t *store, size_t store_length,
                                                     uint32_t definition,
                                                     uint8_t *out, size_t out_length);

/* 3. Inserts an element of a definition into the model of `owner`, after the member at the place. NONE or PLUS in a
 * list of the spine: each element of the owner gets one, filled with the text. Refuses with 3, 4, 6, 8 to 13, 16 and
 * 17. */
struct formstore_answer formstore_insert_element(const uint8_t *store, size_t store_length,
                                                 uint32_t owner, const uint32_t *place, size_t place_length,
                                                 uint32_t definition, uint32_t quantifier,
                                                 const uint8_t *text, size_t text_length,
                                                 uint8_t *out, size_t out_length);

/* 4. Removes the element at the place from the model of `owner`. Takes those children from all elements of the owner,
 * with all below them. Refuses with 6, 8, 14 and 15. */
struct formstore_answer formstore_remove_element(const uint8_t *store, size_t store_length,
                                                 uint32_t owner, const uint32_t *place, size_t place_length,
                                                 uint8_t *out, size_t out_length);

/* 5. Changes the quantifier of the element at the place. In a list of the spine: from STAR or PLUS to NONE or QMARK
 * takes all but the first of those children from each element of the owner; to NONE or PLUS makes one, filled with the
 * text, where none stands. Refuses with 3, 4, 6, 8, 12, 13, 16 and 17. */
struct formstore_answer formstore_change_quantifier(const uint8_t *store, size_t store_length,
                                                    uint32_t owner, const uint32_t *place, size_t place_length,
                                                    uint32_t quantifier, const uint8_t *text, size_t text_length,
                                                    uint8_t *out, size_t out_length);

/* 6. Makes `count` members, from the place on, a group of a sort, without quantifier. Refuses with 4, 6, 8, 14 and 16.
 */
struct formstore_answer formstore_convert_to_group(const uint8_t *store, size_t store_length,
                                                   uint32_t owner, const uint32_t *place, size_t place_length,
                                                   uint32_t count, uint32_t sort,
                                                   uint8_t *out, size_t out_length);

/* 7. Puts the members of the group at the place into its list, in place of the group. Refuses with 6, 8 and 14. */
struct formstore_answer formstore_flatten_group(const uint8_t *store, size_t store_length,
                                                uint32_t owner, const uint32_t *place, size_t place_length,
                                                uint8_t *out, size_t out_length);

/* 8. Changes the quantifier of the group at the place. To NONE or PLUS in a list of the spine: an element of the owner
 * without a child of the group gets what the group wants, filled with the text. Refuses with 3, 4, 6, 8, 12, 13, 16 and
 * 17. */
struct formstore_answer formstore_change_group_quantifier(const uint8_t *store, size_t store_length,
                                                          uint32_t owner, const uint32_t *place, size_t place_length,
                                                          uint32_t quantifier, const uint8_t *text, size_t text_length,
                                                          uint8_t *out, size_t out_length);

/* 9. Adds an attribute to `owner`, as its last. REQUIRED: each element of the owner gets it, with the value. Refuses
 * with 2 to 6, 12, 16 and 17. */
struct formstore_answer formstore_add_attribute(const uint8_t *store, size_t store_length,
                                                uint32_t owner, const uint8_t *name, size_t name_length, uint32_t sort,
                                                const uint8_t *value, size_t value_length,
                                                uint8_t *out, size_t out_length);

/* 10. Destroys an attribute. Takes it from all elements. Refuses with 6. */
struct formstore_answer formstore_destroy_attribute(const uint8_t *store, size_t store_length,
                                                    uint32_t attribute,
                                                    uint8_t *out, size_t out_length);

/* 11. Makes a new last document, an element of the definition filled with the text. Refuses with 3, 6, 16 and 17. */
struct formstore_answer formstore_add_document(const uint8_t *store, size_t store_length,
                                               uint32_t definition, const uint8_t *text, size_t text_length,
                                               uint8_t *out, size_t out_length);

/* 12. Makes a new child of the element `parent`, an element of the definition filled with the text; `child` says how
 * many element children stand before it. Refuses with 3, 6, 7, 8, 15, 16 and 17. */
struct formstore_answer formstore_add_element(const uint8_t *store, size_t store_length,
                                              uint32_t parent, uint32_t child, uint32_t definition,
                                              const uint8_t *text, size_t text_length,
                                              uint8_t *out, size_t out_length);

/* 13. Takes an element with all below it; a root with its whole document. Refuses with 7 and 15. */
struct formstore_answer formstore_destroy_element(const uint8_t *store, size_t store_length,
                                                  uint32_t element,
                                                  uint8_t *out, size_t out_length);

/* 14. Gives an attribute of an element a value; makes the attribute's row if it is absent, and else keeps its serial.
 * Refuses with 3, 6, 7, 15, 16 and 17. */
struct formstore_answer formstore_set_attribute(const uint8_t *store, size_t store_length,
                                                uint32_t element, uint32_t attribute,
                                                const uint8_t *value, size_t value_length,
                                                uint8_t *out, size_t out_length);

/* 15. Takes an attribute from an element. Refuses with 6, 7 and 15. */
struct formstore_answer formstore_destroy_attribute_row(const uint8_t *store, size_t store_length,
                                                        uint32_t element, uint32_t attribute,
                                                        uint8_t *out, size_t out_length);

/* 16. Gives a PCDATA element a text; the text's row keeps its serial. Refuses with 3, 7 and 9. */
struct formstore_answer formstore_set_text(const uint8_t *store, size_t store_length,
                                           uint32_t element, const uint8_t *text, size_t text_length,
                                           uint8_t *out, size_t out_length);

#ifdef __cplusplus
}
#endif

#endif
