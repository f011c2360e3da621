/*
 * ferigulan.h: the type lattice of a compiler for amusement-ride control cabinets, for C99 and C++.
 *
 * The functions are those of liblattice_c.a, which `sh archive.sh lattice_c` proves and builds. Link it, x86-64 alone:
 *
 *     cc -std=c99 -I include program.c target/staticlib/liblattice_c.a
 *
 * A program's types stand in a store, a list of 94 to 1,048,576 words that the caller lends. Functions make types in it
 * and hand back handles, or tell something of the types that are there. A handle is the position of an entry's first
 * word; an entry is a type or a name. "Document 01" is the contract that the functions are proved against, and document
 * 02 has the requests that came after it.
 *
 * WHAT A FUNCTION RETURNS AND WRITES
 *
 * - It returns 0 (FERIGULAN_ACCEPTED), or the number of the refusal that applies; if there are several, the first in
 *   the order 1, 13, 14, 15, 2, 3 and so on to 12. Behind "Refused:" each function below has the numbers that it can
 *   return.
 * - Its answer goes to *answer: a handle, a number, or 1 for yes and 0 for no. A signed number (the ends, value and
 *   mask of an Int, the size of a Float) is its two's complement word, a Float's constant its bits.
 * - A function that answers in one of two ways tells the way in *which.
 * - Refused, it leaves every word of the store and of an output as it was, every byte of a file, and *answer and
 *   *which. The index and the memory of an opened store may have changed, where they are not const.
 * - Lists that are lent as const are never written. Of a list that is not const, a function writes what its comment
 *   says; to append is to write behind the used words, and word 0, which counts them. All other used words keep, so
 *   that a handle stays what it is; ferigulan_fresh and ferigulan_load alone write the whole list anew.
 * - It uses no memory but what it is lent and the stack, no static variables, and never calls back.
 *
 * WHAT THE CALLER PROMISES
 *
 * No function can test this, and where it is broken nothing is proved:
 *
 * - Each pointer is valid for its length during the call, and aligned: for words 8 bytes. A length of 0 may come with
 *   any aligned pointer that is not NULL.
 * - A length counts elements: words, or the bytes of a name, a label or a file.
 * - What a function may write overlaps nothing else that the same call is lent.
 * - While a call may write a list, no other thread uses that list. What is const is not written, so several threads may
 *   make plain calls at a time that take one list as const. Opened calls are all lent the memory to write, so that on
 *   one opened store there is one at a time.
 * - The stack is large enough: README.md, "Stack", has the figures.
 *
 * The words themselves may hold anything, since plain calls test them. Opened functions do not: what they ask for
 * besides stands with them, below.
 */
#ifndef FERIGULAN_H
#define FERIGULAN_H

#include <stdbool.h>
#include <stddef.h>
#include <stdint.h>

#ifdef __cplusplus
extern "C" {
#endif

/* ---- constants */

/* How many words a store has, at least and at most. */
#define FERIGULAN_FEWEST_WORDS 94
#define FERIGULAN_MOST_WORDS 1048576

/* How many handles a list that ferigulan_meet_list merges has at most. */
#define FERIGULAN_MOST_HANDLES 4096

/* How many words a field is lent as: name, type, alias, final. */
#define FERIGULAN_FIELD_WORDS 4

/* How many words the index of an opened store of n words needs, and how many its memory is best lent. */
#define FERIGULAN_INDEX_LENGTH(n) (2 * (size_t)(n) + (size_t)(n) / 64 + 1)
#define FERIGULAN_MEMORY_LENGTH(n) (6 * (size_t)(n))

/* How many bytes the label of a saved store has at most, and the file of the longest store with it. */
#define FERIGULAN_LONGEST_LABEL 255
#define FERIGULAN_LONGEST_FILE FERIGULAN_FILE_LENGTH(FERIGULAN_LONGEST_LABEL, FERIGULAN_MOST_WORDS)

/* How many bytes the file of a store has: with a label of k bytes, and so many words used, which word 0 tells. */
#define FERIGULAN_FILE_LENGTH(k, used) ((size_t)(k) + 8 * ((size_t)(used) - FERIGULAN_FEWEST_WORDS) + 16)

/* What a function returns: 0, or the row of document 01's table "Calls turned back" that applies. Rows 13 to 15 are
   document 02's. */
enum ferigulan_refusals {
    FERIGULAN_ACCEPTED = 0,
    FERIGULAN_NOT_WELL_FORMED = 1, /* store length out of limits, or not well formed */
    FERIGULAN_NO_ENTRY = 2, /* handle starts no entry */
    FERIGULAN_WRONG_KIND = 3, /* entry of a kind the call does not take */
    FERIGULAN_BAD_VALUE = 4, /* a float size, a size's bits, a field list's length, an alias, a flag */
    FERIGULAN_TOO_MANY = 5, /* over 255 name bytes, elements or fields; over 255 bytes of a label */
    FERIGULAN_TOO_DEEP = 6, /* depth over 32 */
    FERIGULAN_FORWARD_REFERENCE = 7, /* fields wanted of a forward reference */
    FERIGULAN_INDEX_TOO_LARGE = 8, /* offset index above the field count */
    FERIGULAN_NO_LOG_SIZE = 9, /* no log size */
    FERIGULAN_BODY_WITHOUT_NIL = 10, /* array body a pointer without nil */
    FERIGULAN_OUTPUT_TOO_SHORT = 11, /* output shorter than the answer; of ferigulan_open, index too short */
    FERIGULAN_NO_ROOM = 12, /* the entries to append, or a loaded store, do not fit */
    FERIGULAN_LIST_TOO_LONG = 13, /* over 4,096 handles to merge */
    FERIGULAN_BAD_TRAILER = 14, /* a file's trailer is missing, or does not fit the length */
    FERIGULAN_BAD_WORDS = 15 /* a file's words, behind the fresh ones, form no store, or one with two equal entries */
};

/* The kinds of entries: what ferigulan_kind answers, but for NAME, which is no type. */
enum ferigulan_kinds {
    FERIGULAN_KIND_NAME = 0,
    FERIGULAN_KIND_BOT = 1,
    FERIGULAN_KIND_TOP = 2,
    FERIGULAN_KIND_CTRL = 3,
    FERIGULAN_KIND_XCTRL = 4,
    FERIGULAN_KIND_INT = 5,
    FERIGULAN_KIND_FLOAT = 6,
    FERIGULAN_KIND_TUPLE = 7,
    FERIGULAN_KIND_STRUCT = 8,
    FERIGULAN_KIND_FREF = 9, /* a forward reference to a struct */
    FERIGULAN_KIND_MEM_PTR = 10,
    FERIGULAN_KIND_MEM = 11
};

/* The handles of the fresh store's entries, which every store begins with. */
enum ferigulan_fresh_handles {
    FERIGULAN_NAME_TOP = 1, /* the name "$TOP" */
    FERIGULAN_NAME_BOT = 3, /* the name "$BOT" */
    FERIGULAN_BOT = 5,
    FERIGULAN_TOP = 6,
    FERIGULAN_CTRL = 7,
    FERIGULAN_XCTRL = 8,
    FERIGULAN_INT_ZERO = 9, /* 0..0 */
    FERIGULAN_INT_ONE = 12, /* 1..1 */
    FERIGULAN_INT_BOOL = 15, /* 0..1 */
    FERIGULAN_STRUCT_TOP = 18, /* $TOP, without fields */
    FERIGULAN_STRUCT_BOT = 20, /* $BOT, without fields */
    FERIGULAN_INT_TOP = 22, /* the largest number..the smallest */
    FERIGULAN_INT_BOT = 25, /* the smallest number..the largest */
    FERIGULAN_INT_TWO = 28, /* 2..2 */
    FERIGULAN_INT_I8 = 31,
    FERIGULAN_INT_I16 = 34,
    FERIGULAN_INT_I32 = 37,
    FERIGULAN_INT_U8 = 40,
    FERIGULAN_INT_U16 = 43,
    FERIGULAN_INT_U32 = 46,
    FERIGULAN_FLOAT_TOP = 49, /* size -64 */
    FERIGULAN_FLOAT_T32 = 52, /* size -32 */
    FERIGULAN_FLOAT_ZERO = 55, /* the constant 0.0 */
    FERIGULAN_FLOAT_B32 = 58, /* size 32 */
    FERIGULAN_FLOAT_BOT = 61, /* size 64 */
    FERIGULAN_IF_BOTH = 64, /* (Ctrl, Ctrl) */
    FERIGULAN_IF_NEITHER = 67, /* (XCtrl, XCtrl) */
    FERIGULAN_IF_TRUE = 70, /* (Ctrl, XCtrl) */
    FERIGULAN_IF_FALSE = 73, /* (XCtrl, Ctrl) */
    FERIGULAN_MEM_TOP = 76, /* alias 4,294,967,295 and Top */
    FERIGULAN_MEM_BOT = 79, /* alias 4,294,967,295 and Bot */
    FERIGULAN_PTR_BOT = 82, /* to $BOT, or nil */
    FERIGULAN_PTR_TOP = 85, /* to $TOP, never nil */
    FERIGULAN_PTR_NULL = 88, /* to $TOP, or nil */
    FERIGULAN_PTR_VOID = 91 /* to $BOT, never nil */
};

/* ---- a store */

/* Whether the n words are those of a store, which is what row 1 asks. It returns its answer, and writes nothing. */
bool ferigulan_well_formed(const uint64_t *words, size_t n);

/* Looks for an entry by its k words as a store has them, the head first, and answers the lowest handle of an equal one.
   *which is 1 where there is one, and 0 where there is none; then *answer keeps. *count is the number of entries that
   were not passed over: those of an equal head, up to the one found and with it, or all of them where none is found.
   No store has an entry of no words: it is absent, and is counted as one whose head is 0. It reads the words and the
   entry and writes the three words. Refused, and then all three keep: 1. */
uint32_t ferigulan_find_entry(const uint64_t *words, size_t n, const uint64_t *entry, size_t k, uint64_t *which,
    uint64_t *count, uint64_t *answer);

/* Writes a fresh store into the n words, whatever they were: 94 words, and 0 behind them. Tests the length alone, and
   answers nothing. Refused: 1, where n is not 94 to 1,048,576. */
uint32_t ferigulan_fresh(uint64_t *words, size_t n);

/*
 * A saved store, a file of bytes: a label of up to 255 bytes, which may be any; the used words from 94 on, eight bytes
 * each, the lowest first; and a trailer of two such words, the label's length and the number of the words. Equal labels
 * and equal used words give equal files, in lists of whatever lengths.
 */

/* Writes the file of the store in the n words, with the k bytes of the label, into the m bytes, and answers its length,
   which is FERIGULAN_FILE_LENGTH(k, words[0]). It reads the words and the label; the bytes behind the file keep.
   Refused, and then every byte keeps: 1; 5, where the label is over 255 bytes; 11, where the file is longer than m. */
uint32_t ferigulan_save(const uint64_t *words, size_t n, const uint8_t *label, size_t k, uint8_t *file, size_t m,
    uint64_t *answer);

/* Fills the n words with the store that the m bytes were written from, and 0 behind it, whatever the words were, and
   answers the label's length: the label is the file's first so many bytes. It takes just the files that ferigulan_save
   makes of stores that calls alone have made, and reads them from wherever they stand, at any alignment. The store goes
   on as the one that was saved: every handle is what it was. Refused, and then every word keeps, in this order: 1,
   where n is not 94 to 1,048,576, which is all that is tested of the words; 14, where the trailer is missing or does
   not fit the length; 15, where the words form no store of any allowed length behind the fresh ones, or one with two
   equal entries; 5, where the label is over 255 bytes; 12, where the store has more than n words. */
uint32_t ferigulan_load(uint64_t *words, size_t n, const uint8_t *file, size_t m, uint64_t *answer);

/*
 * ---- plain calls: on any words whatever. Each tests all of them first, and is refused with 1 where they are not those
 * of a store; that is not said again below. All are there a second time for opened stores, at the end.
 */

/*
 * Makers. Each answers the lowest handle of an equal entry, and appends the entry, its parts first, where there is
 * none. They may append to the words and write *answer; they never touch another word.
 */

/* The Int of one value, a two's complement word. Refused: 12. */
uint32_t ferigulan_get_int(uint64_t *words, size_t n, uint64_t value, uint64_t *answer);

/* The Int of the numbers from min to max, two's complement words; with max less than min it is a high one.
   Refused: 12. */
uint32_t ferigulan_make_int(uint64_t *words, size_t n, uint64_t min, uint64_t max, uint64_t *answer);

/* The Float of one constant, by its bits, so that 0.0 and -0.0 are two. Refused: 12. */
uint32_t ferigulan_get_float(uint64_t *words, size_t n, uint64_t bits, uint64_t *answer);

/* The Float of a size (a two's complement word) and a constant's bits: 0 and any bits, or 32, 64, -32 or -64 and the
   bits 0. Refused: 4, 12. */
uint32_t ferigulan_make_float(uint64_t *words, size_t n, uint64_t sz, uint64_t bits, uint64_t *answer);

/* The tuple of k types. Refused: 2, 3, 5, 6, 12. */
uint32_t ferigulan_get_tuple(uint64_t *words, size_t n, const uint64_t *types, size_t k, uint64_t *answer);

/* The name of k bytes. Refused: 5, 12. */
uint32_t ferigulan_get_str(uint64_t *words, size_t n, const uint8_t *name, size_t k, uint64_t *answer);

/* The struct of this name and the fields in k words: four words a field, its name's handle, its type's, its alias (at
   most 4,294,967,295), and 1 if it is final, else 0. Refused: 2, 3, 4, 5, 6, 12. */
uint32_t ferigulan_get_struct(uint64_t *words, size_t n, uint64_t name, const uint64_t *fields, size_t k,
    uint64_t *answer);

/* The array of this length (an Int) and this element type: a struct that is named by the k bytes of text in brackets,
   with a final field "#" and a field "[]" that is not final. Refused: 2, 3, 4, 5, 6, 10, 12. */
uint32_t ferigulan_make_ary(uint64_t *words, size_t n, uint64_t len, uint64_t len_alias, uint64_t body,
    uint64_t body_alias, const uint8_t *text, size_t k, uint64_t *answer);

/* The forward reference to a struct of this name. Refused: 2, 3, 12. */
uint32_t ferigulan_make_struct_fref(uint64_t *words, size_t n, uint64_t name, uint64_t *answer);

/* The pointer to this struct or forward reference; nil is 1 where it may be nil, else 0. Refused: 2, 3, 4, 6, 12. */
uint32_t ferigulan_get_mem_ptr(uint64_t *words, size_t n, uint64_t to, uint64_t nil, uint64_t *answer);

/* The memory type of this alias (at most 4,294,967,295) and this type. Refused: 2, 3, 4, 6, 12. */
uint32_t ferigulan_get_mem(uint64_t *words, size_t n, uint64_t alias, uint64_t t, uint64_t *answer);

/*
 * The lattice. As the makers, these answer a handle, may append to the words and write *answer, and never touch another
 * word.
 */

/* The merge of two types: what is known of a value that is of the one or of the other. Refused: 2, 3, 12. */
uint32_t ferigulan_meet(uint64_t *words, size_t n, uint64_t a, uint64_t b, uint64_t *answer);

/* The merge of k types from left to right, starting at TOP: each as ferigulan_meet makes it, and of no types TOP. What
   is made on the way is appended too. All handles are tested first, and a refusal leaves the store as it was before the
   first merge. Where calls alone have made the store, lists of the same types give one handle in any order, if these
   reach no memory type and no forward reference. Refused: 13, 2, 3, 12. */
uint32_t ferigulan_meet_list(uint64_t *words, size_t n, const uint64_t *types, size_t k, uint64_t *answer);

/* The merge from the other side: the dual of the meet of the duals, all of which are made. Refused: 2, 3, 12. */
uint32_t ferigulan_join(uint64_t *words, size_t n, uint64_t a, uint64_t b, uint64_t *answer);

/* The type turned over: Bot and Top, Ctrl and XCtrl, $BOT and $TOP and the ends of Ints change places, sizes of Floats
   change sign, final and nil are negated, down into the parts. Refused: 2, 3, 12. */
uint32_t ferigulan_dual(uint64_t *words, size_t n, uint64_t a, uint64_t *answer);

/* The fixed lower type that the original Rust names so: of an Int INT_BOT, of a Float FLOAT_BOT, down into the parts.
   Refused: 2, 3, 12. */
uint32_t ferigulan_glb(uint64_t *words, size_t n, uint64_t a, uint64_t *answer);

/* The fixed upper type that the original Rust names so: of an Int INT_TOP, of a Float FLOAT_TOP, of a tuple TOP, down
   into the parts. Refused: 2, 3, 12. */
uint32_t ferigulan_lub(uint64_t *words, size_t n, uint64_t a, uint64_t *answer);

/* The read-only form of a type, through pointers: every field of a struct becomes final, and the type of a field that
   was not final is made read-only too; the type of a field that was final stays. Refused: 2, 3, 12. */
uint32_t ferigulan_make_ro(uint64_t *words, size_t n, uint64_t a, uint64_t *answer);

/* The type without its zero, as the original Rust has it: an Int that begins or ends with 0 is cut there (0..0 is
   1..1), and any other Int stays; a pointer is PTR_VOID; another type is its glb. Refused: 2, 3, 12. */
uint32_t ferigulan_non_zero(uint64_t *words, size_t n, uint64_t a, uint64_t *answer);

/*
 * What is told of a type. These read the words and write *answer; they never touch anything else.
 */

/* The kind of a type, one of enum ferigulan_kinds. Refused: 2, 3. */
uint32_t ferigulan_kind(const uint64_t *words, size_t n, uint64_t h, uint64_t *answer);

/* The Int of a truth value, by its handle: INT_ZERO for 0, INT_ONE for 1. Refused: 4. */
uint32_t ferigulan_get_bool(const uint64_t *words, size_t n, uint64_t value, uint64_t *answer);

/* 1 if the meet of a and b would be b, else 0. It makes no entry, and needs no room. Refused: 2, 3. */
uint32_t ferigulan_isa(const uint64_t *words, size_t n, uint64_t a, uint64_t b, uint64_t *answer);

/* 1 if all fields that are reached from the type, through pointers and fields, are final, else 0; tuples, memory types
   and forward references are final, whatever they hold. Refused: 2, 3. */
uint32_t ferigulan_is_final(const uint64_t *words, size_t n, uint64_t a, uint64_t *answer);

/* The type that a variable of this type begins with, by its handle: the zero of an Int, a Float or a pointer that may
   be nil, TOP for a pointer that may not, and else the type itself. Refused: 2, 3. */
uint32_t ferigulan_make_init(const uint64_t *words, size_t n, uint64_t a, uint64_t *answer);

/* The zero of an Int, a Float or a pointer, by its handle: INT_ZERO, FLOAT_ZERO or PTR_NULL. Refused: 2, 3. */
uint32_t ferigulan_make_zero(const uint64_t *words, size_t n, uint64_t a, uint64_t *answer);

/* 1 if the type is high, on Top's side of the lattice's centre, else 0. Of pointers PTR_TOP alone is; tuples, structs
   and memory types never are. Refused: 2, 3. */
uint32_t ferigulan_is_high(const uint64_t *words, size_t n, uint64_t a, uint64_t *answer);

/* 1 if the type is high or a constant, else 0. Refused: 2, 3. */
uint32_t ferigulan_is_high_or_constant(const uint64_t *words, size_t n, uint64_t a, uint64_t *answer);

/* 1 if the type is a constant, an Int or Float of one value or PTR_NULL, else 0. Refused: 2, 3. */
uint32_t ferigulan_is_constant(const uint64_t *words, size_t n, uint64_t a, uint64_t *answer);

/* 1 if the type is a forward reference or a pointer to one, else 0. Refused: 2, 3. */
uint32_t ferigulan_is_fref(const uint64_t *words, size_t n, uint64_t a, uint64_t *answer);

/* 0, 1, 2 or 3 where a field of the type takes 1, 2, 4 or 8 bytes. Refused: 2, 3, 9. */
uint32_t ferigulan_log_size(const uint64_t *words, size_t n, uint64_t a, uint64_t *answer);

/* The lower end of an Int, signed; of a high one, the larger number. Refused: 2, 3. */
uint32_t ferigulan_int_min(const uint64_t *words, size_t n, uint64_t a, uint64_t *answer);

/* The upper end of an Int, signed; of a high one, the smaller number. Refused: 2, 3. */
uint32_t ferigulan_int_max(const uint64_t *words, size_t n, uint64_t a, uint64_t *answer);

/* The bits that numbers of an Int have: bit k is 1 exactly if some number of the range has bit k; 0 of a high Int.
   Refused: 2, 3. */
uint32_t ferigulan_int_mask(const uint64_t *words, size_t n, uint64_t a, uint64_t *answer);

/* The size of a Float, signed: 0 of a constant, else 32, 64, -32 or -64. Refused: 2, 3. */
uint32_t ferigulan_float_sz(const uint64_t *words, size_t n, uint64_t a, uint64_t *answer);

/* 1 if binary32 holds a Float's constant exactly, else 0; a Float of a size alone has the constant 0.0.
   Refused: 2, 3. */
uint32_t ferigulan_float_is_f32(const uint64_t *words, size_t n, uint64_t a, uint64_t *answer);

/* The handle of a struct's name, or of a forward reference's. Refused: 2, 3. */
uint32_t ferigulan_struct_name(const uint64_t *words, size_t n, uint64_t s, uint64_t *answer);

/* 1 if a struct is an array, with two fields of which the second is named "[]", else 0. Refused: 2, 3, 7. */
uint32_t ferigulan_is_ary(const uint64_t *words, size_t n, uint64_t s, uint64_t *answer);

/* The byte at which field `at` of a struct begins; at the field count, the end, rounded up to 8. Fields of 8 bytes come
   first, then those of 4, 2 and 1, each group in the fields' order. Refused: 2, 3, 7, 8, 9. */
uint32_t ferigulan_offset(const uint64_t *words, size_t n, uint64_t s, uint64_t at, uint64_t *answer);

/* The byte at which an array's elements begin. Refused: 2, 3, 9. */
uint32_t ferigulan_ary_base(const uint64_t *words, size_t n, uint64_t s, uint64_t *answer);

/* The log size of an array's elements. Refused: 2, 3, 9. */
uint32_t ferigulan_ary_scale(const uint64_t *words, size_t n, uint64_t s, uint64_t *answer);

/*
 * Answers in one of two ways. These read the words and write *which and *answer; they never touch anything else. *which
 * is 1 where there is an answer, and 0 where there is none; then *answer keeps.
 */

/* The value of an Int that is a constant, signed. Refused: 2, 3. */
uint32_t ferigulan_int_value(const uint64_t *words, size_t n, uint64_t a, uint64_t *which, uint64_t *answer);

/* The bits of a Float that is a constant. Refused: 2, 3. */
uint32_t ferigulan_float_value(const uint64_t *words, size_t n, uint64_t a, uint64_t *which, uint64_t *answer);

/* What a Float says. *which is 1 of a constant, and *answer its bits; *which is 0 of a size alone, and *answer is the
   size, signed. Refused: 2, 3. */
uint32_t ferigulan_float_reading(const uint64_t *words, size_t n, uint64_t a, uint64_t *which, uint64_t *answer);

/* The number, from 0, of the first field with this name; names are the same where their bytes are. Refused: 2, 3, 7. */
uint32_t ferigulan_find(const uint64_t *words, size_t n, uint64_t s, uint64_t name, uint64_t *which, uint64_t *answer);

/* The number, from 0, of the first field with this alias. Refused: 2, 3, 4, 7. */
uint32_t ferigulan_find_alias(const uint64_t *words, size_t n, uint64_t s, uint64_t alias, uint64_t *which,
    uint64_t *answer);

/*
 * Lent outputs. These read the words, write the first words of the k words of the output, and answer how many they have
 * written. They never touch the words of the output behind those, nor anything but *answer besides.
 */

/* The field list of a struct, four words a field as ferigulan_get_struct is lent them. Refused: 2, 3, 7, 11. */
uint32_t ferigulan_struct_fields(const uint64_t *words, size_t n, uint64_t s, uint64_t *output, size_t k,
    uint64_t *answer);

/* Where the fields of a struct begin, a word each, and the end: the numbers of ferigulan_offset. Refused: 2, 3, 7, 9,
   11. */
uint32_t ferigulan_offsets(const uint64_t *words, size_t n, uint64_t s, uint64_t *output, size_t k, uint64_t *answer);

/*
 * ---- opened stores: the same calls without the test of all words, with an index and a memory of answers in two more
 * lists
 *
 * A function ferigulan_opened_X answers, and leaves in the words and in an output, just what the plain call ferigulan_X
 * does; it is refused with the same numbers, but never with 1. What it is lent after the three lists is what
 * ferigulan_X is lent after the words.
 *
 * The caller promises, besides what stands at the top, that the three lists overlap nowhere, that ferigulan_open has
 * accepted them at these lengths, and that nobody but these functions has written any of them since: no plain call that
 * appends either. No function tests this. After each call, accepted or refused, the store is open as before.
 */

/* Opens the store in the n words: writes an index and a blank memory into two lists, whatever stood in them. The index
   needs FERIGULAN_INDEX_LENGTH(n) words or more; the memory may have any length, best FERIGULAN_MEMORY_LENGTH(n).
   Answers nothing. Refused, and then both lists keep: 1; 11, where the index is too short. */
uint32_t ferigulan_open(const uint64_t *words, size_t n, uint64_t *index, size_t i, uint64_t *memory, size_t m);

/*
 * These may append to the words, and write the index, the memory and *answer; they never touch another word.
 */

/* As ferigulan_get_int. */
uint32_t ferigulan_opened_get_int(uint64_t *words, size_t n, uint64_t *index, size_t i, uint64_t *memory, size_t m,
    uint64_t value, uint64_t *answer);
/* As ferigulan_make_int. */
uint32_t ferigulan_opened_make_int(uint64_t *words, size_t n, uint64_t *index, size_t i, uint64_t *memory, size_t m,
    uint64_t min, uint64_t max, uint64_t *answer);
/* As ferigulan_get_float. */
uint32_t ferigulan_opened_get_float(uint64_t *words, size_t n, uint64_t *index, size_t i, uint64_t *memory, size_t m,
    uint64_t bits, uint64_t *answer);
/* As ferigulan_make_float. */
uint32_t ferigulan_opened_make_float(uint64_t *words, size_t n, uint64_t *index, size_t i, uint64_t *memory, size_t m,
    uint64_t sz, uint64_t bits, uint64_t *answer);
/* As ferigulan_get_tuple. */
uint32_t ferigulan_opened_get_tuple(uint64_t *words, size_t n, uint64_t *index, size_t i, uint64_t *memory, size_t m,
    const uint64_t *types, size_t k, uint64_t *answer);
/* As ferigulan_get_str. */
uint32_t ferigulan_opened_get_str(uint64_t *words, size_t n, uint64_t *index, size_t i, uint64_t *memory, size_t m,
    const uint8_t *name, size_t k, uint64_t *answer);
/* As ferigulan_get_struct. */
uint32_t ferigulan_opened_get_struct(uint64_t *words, size_t n, uint64_t *index, size_t i, uint64_t *memory, size_t m,
    uint64_t name, const uint64_t *fields, size_t k, uint64_t *answer);
/* As ferigulan_make_ary. */
uint32_t ferigulan_opened_make_ary(uint64_t *words, size_t n, uint64_t *index, size_t i, uint64_t *memory, size_t m,
    uint64_t len, uint64_t len_alias, uint64_t body, uint64_t body_alias, const uint8_t *text, size_t k,
    uint64_t *answer);
/* As ferigulan_make_struct_fref. */
uint32_t ferigulan_opened_make_struct_fref(uint64_t *words, size_t n, uint64_t *index, size_t i, uint64_t *memory,
    size_t m, uint64_t name, uint64_t *answer);
/* As ferigulan_get_mem_ptr. */
uint32_t ferigulan_opened_get_mem_ptr(uint64_t *words, size_t n, uint64_t *index, size_t i, uint64_t *memory, size_t m,
    uint64_t to, uint64_t nil, uint64_t *answer);
/* As ferigulan_get_mem. */
uint32_t ferigulan_opened_get_mem(uint64_t *words, size_t n, uint64_t *index, size_t i, uint64_t *memory, size_t m,
    uint64_t alias, uint64_t t, uint64_t *answer);
/* As ferigulan_meet. */
uint32_t ferigulan_opened_meet(uint64_t *words, size_t n, uint64_t *index, size_t i, uint64_t *memory, size_t m,
    uint64_t a, uint64_t b, uint64_t *answer);
/* As ferigulan_meet_list. */
uint32_t ferigulan_opened_meet_list(uint64_t *words, size_t n, uint64_t *index, size_t i, uint64_t *memory, size_t m,
    const uint64_t *types, size_t k, uint64_t *answer);
/* As ferigulan_join. */
uint32_t ferigulan_opened_join(uint64_t *words, size_t n, uint64_t *index, size_t i, uint64_t *memory, size_t m,
    uint64_t a, uint64_t b, uint64_t *answer);
/* As ferigulan_dual. */
uint32_t ferigulan_opened_dual(uint64_t *words, size_t n, uint64_t *index, size_t i, uint64_t *memory, size_t m,
    uint64_t a, uint64_t *answer);
/* As ferigulan_glb. */
uint32_t ferigulan_opened_glb(uint64_t *words, size_t n, uint64_t *index, size_t i, uint64_t *memory, size_t m,
    uint64_t a, uint64_t *answer);
/* As ferigulan_lub. */
uint32_t ferigulan_opened_lub(uint64_t *words, size_t n, uint64_t *index, size_t i, uint64_t *memory, size_t m,
    uint64_t a, uint64_t *answer);
/* As ferigulan_make_ro. */
uint32_t ferigulan_opened_make_ro(uint64_t *words, size_t n, uint64_t *index, size_t i, uint64_t *memory, size_t m,
    uint64_t a, uint64_t *answer);
/* As ferigulan_non_zero. */
uint32_t ferigulan_opened_non_zero(uint64_t *words, size_t n, uint64_t *index, size_t i, uint64_t *memory, size_t m,
    uint64_t a, uint64_t *answer);

/*
 * These may write the memory, *answer and, where they are lent them, *which or the output; they never touch anything
 * else. Today isa and is_final alone write the memory, but no promise is made of that.
 */

/* As ferigulan_kind. */
uint32_t ferigulan_opened_kind(const uint64_t *words, size_t n, const uint64_t *index, size_t i, uint64_t *memory,
    size_t m, uint64_t h, uint64_t *answer);
/* As ferigulan_get_bool. */
uint32_t ferigulan_opened_get_bool(const uint64_t *words, size_t n, const uint64_t *index, size_t i, uint64_t *memory,
    size_t m, uint64_t value, uint64_t *answer);
/* As ferigulan_isa. */
uint32_t ferigulan_opened_isa(const uint64_t *words, size_t n, const uint64_t *index, size_t i, uint64_t *memory,
    size_t m, uint64_t a, uint64_t b, uint64_t *answer);
/* As ferigulan_is_final. */
uint32_t ferigulan_opened_is_final(const uint64_t *words, size_t n, const uint64_t *index, size_t i, uint64_t *memory,
    size_t m, uint64_t a, uint64_t *answer);
/* As ferigulan_make_init. */
uint32_t ferigulan_opened_make_init(const uint64_t *words, size_t n, const uint64_t *index, size_t i, uint64_t *memory,
    size_t m, uint64_t a, uint64_t *answer);
/* As ferigulan_make_zero. */
uint32_t ferigulan_opened_make_zero(const uint64_t *words, size_t n, const uint64_t *index, size_t i, uint64_t *memory,
    size_t m, uint64_t a, uint64_t *answer);
/* As ferigulan_is_high. */
uint32_t ferigulan_opened_is_high(const uint64_t *words, size_t n, const uint64_t *index, size_t i, uint64_t *memory,
    size_t m, uint64_t a, uint64_t *answer);
/* As ferigulan_is_high_or_constant. */
uint32_t ferigulan_opened_is_high_or_constant(const uint64_t *words, size_t n, const uint64_t *index, size_t i,
    uint64_t *memory, size_t m, uint64_t a, uint64_t *answer);
/* As ferigulan_is_constant. */
uint32_t ferigulan_opened_is_constant(const uint64_t *words, size_t n, const uint64_t *index, size_t i,
    uint64_t *memory, size_t m, uint64_t a, uint64_t *answer);
/* As ferigulan_is_fref. */
uint32_t ferigulan_opened_is_fref(const uint64_t *words, size_t n, const uint64_t *index, size_t i, uint64_t *memory,
    size_t m, uint64_t a, uint64_t *answer);
/* As ferigulan_log_size. */
uint32_t ferigulan_opened_log_size(const uint64_t *words, size_t n, const uint64_t *index, size_t i, uint64_t *memory,
    size_t m, uint64_t a, uint64_t *answer);
/* As ferigulan_int_min. */
uint32_t ferigulan_opened_int_min(const uint64_t *words, size_t n, const uint64_t *index, size_t i, uint64_t *memory,
    size_t m, uint64_t a, uint64_t *answer);
/* As ferigulan_int_max. */
uint32_t ferigulan_opened_int_max(const uint64_t *words, size_t n, const uint64_t *index, size_t i, uint64_t *memory,
    size_t m, uint64_t a, uint64_t *answer);
/* As ferigulan_int_mask. */
uint32_t ferigulan_opened_int_mask(const uint64_t *words, size_t n, const uint64_t *index, size_t i, uint64_t *memory,
    size_t m, uint64_t a, uint64_t *answer);
/* As ferigulan_int_value. */
uint32_t ferigulan_opened_int_value(const uint64_t *words, size_t n, const uint64_t *index, size_t i, uint64_t *memory,
    size_t m, uint64_t a, uint64_t *which, uint64_t *answer);
/* As ferigulan_float_sz. */
uint32_t ferigulan_opened_float_sz(const uint64_t *words, size_t n, const uint64_t *index, size_t i, uint64_t *memory,
    size_t m, uint64_t a, uint64_t *answer);
/* As ferigulan_float_is_f32. */
uint32_t ferigulan_opened_float_is_f32(const uint64_t *words, size_t n, const uint64_t *index, size_t i,
    uint64_t *memory, size_t m, uint64_t a, uint64_t *answer);
/* As ferigulan_float_value. */
uint32_t ferigulan_opened_float_value(const uint64_t *words, size_t n, const uint64_t *index, size_t i,
    uint64_t *memory, size_t m, uint64_t a, uint64_t *which, uint64_t *answer);
/* As ferigulan_float_reading. */
uint32_t ferigulan_opened_float_reading(const uint64_t *words, size_t n, const uint64_t *index, size_t i,
    uint64_t *memory, size_t m, uint64_t a, uint64_t *which, uint64_t *answer);
/* As ferigulan_struct_name. */
uint32_t ferigulan_opened_struct_name(const uint64_t *words, size_t n, const uint64_t *index, size_t i,
    uint64_t *memory, size_t m, uint64_t s, uint64_t *answer);
/* As ferigulan_struct_fields. */
uint32_t ferigulan_opened_struct_fields(const uint64_t *words, size_t n, const uint64_t *index, size_t i,
    uint64_t *memory, size_t m, uint64_t s, uint64_t *output, size_t k, uint64_t *answer);
/* As ferigulan_find. */
uint32_t ferigulan_opened_find(const uint64_t *words, size_t n, const uint64_t *index, size_t i, uint64_t *memory,
    size_t m, uint64_t s, uint64_t name, uint64_t *which, uint64_t *answer);
/* As ferigulan_find_alias. */
uint32_t ferigulan_opened_find_alias(const uint64_t *words, size_t n, const uint64_t *index, size_t i, uint64_t *memory,
    size_t m, uint64_t s, uint64_t alias, uint64_t *which, uint64_t *answer);
/* As ferigulan_is_ary. */
uint32_t ferigulan_opened_is_ary(const uint64_t *words, size_t n, const uint64_t *index, size_t i, uint64_t *memory,
    size_t m, uint64_t s, uint64_t *answer);
/* As ferigulan_offset. */
uint32_t ferigulan_opened_offset(const uint64_t *words, size_t n, const uint64_t *index, size_t i, uint64_t *memory,
    size_t m, uint64_t s, uint64_t at, uint64_t *answer);
/* As ferigulan_offsets. */
uint32_t ferigulan_opened_offsets(const uint64_t *words, size_t n, const uint64_t *index, size_t i, uint64_t *memory,
    size_t m, uint64_t s, uint64_t *output, size_t k, uint64_t *answer);
/* As ferigulan_ary_base. */
uint32_t ferigulan_opened_ary_base(const uint64_t *words, size_t n, const uint64_t *index, size_t i, uint64_t *memory,
    size_t m, uint64_t s, uint64_t *answer);
/* As ferigulan_ary_scale. */
uint32_t ferigulan_opened_ary_scale(const uint64_t *words, size_t n, const uint64_t *index, size_t i, uint64_t *memory,
    size_t m, uint64_t s, uint64_t *answer);

#ifdef __cplusplus
}
#endif

#endif
