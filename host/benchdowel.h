/* Benchdowel for programs in C: the check, the merge and the value reader.
 *
 * `rt lib` in crates/program_exports proves them and writes the archive, crates/program_exports/out/libprogram_exports.a, for x86-64 Linux. It needs
 * nothing but the C library.
 *
 * Every function answers for all bytes and numbers. What it cannot see the caller owes it:
 *
 * - a pointer, never null, to as many items as the length behind it says, aligned for its type; of a length of 0 no item is read;
 * - memory that is lent to be written shares no byte with anything else that is passed in the same call;
 * - BD_STACK bytes of stack;
 * - for two calls at the same time, memory to be written for each.
 *
 * No pointer is kept.
 */
#ifndef BENCHDOWEL_H
#define BENCHDOWEL_H

#include <stddef.h>
#include <stdint.h>

#ifdef __cplusplus
extern "C" {
#endif

/* The number of this interface: one more wherever a function takes, answers or leaves something else than before. bd_version answers that of the
 * archive. */
#define BD_VERSION 2
uint32_t bd_version(void);

/* The limits of documents, tables and elements, which refusals 1, 2, 4 and 8 stand for; a root is at depth 1. Lengths are in bytes. */
#define BD_DOCUMENT_LIMIT 1048576
#define BD_TABLES_LIMIT 1048576
#define BD_ELEMENTS_LIMIT 16384
#define BD_DEPTH_LIMIT 32
#define BD_ATTRIBUTES_LIMIT 16
#define BD_NAME_LIMIT 64
#define BD_VALUE_LIMIT 4096
#define BD_ROWS_LIMIT 65535
#define BD_ROW_LIMIT 4096

/* What is lent: bytes of scratch, and how many numbers an element and a finding take. With room for BD_ELEMENTS_LIMIT elements, and for
 * BD_PROCEDURES findings of each of them, no check is refused for want of room (3, 9, 11). */
#define BD_SCRATCH 4096
#define BD_ELEMENT_NUMBERS 4
#define BD_FINDING_NUMBERS 3
#define BD_PROCEDURES 38

/* Bytes of stack that a call may use. */
#define BD_STACK 4194304

/* An answer. `refusal` is 0 where nothing is refused, and `value` is then how many findings there are. Otherwise `refusal` is the
 * number of the refusal, and `value` what it returns:
 *
 *    1   the document is over 1,048,576 bytes                            its length
 *    2   the tables are over 1,048,576 bytes                             their length
 *    3   the scratch area is under 4,096 bytes                           4,096
 *    4   the tables break a rule                                         start of the first bad line, or of what follows the last
 *                                                                        section; the length if that line lacks its line feed
 *    5   document: bad UTF-8 or character, or a leading byte order mark  its first byte
 *    6   document type declaration or CDATA                              the piece
 *    7   not well formed as narrowed                                     the piece
 *    8   a limit passed                                                  the piece (for content, the end tag)
 *    9   the element table is too small                                  elements needed
 *   10   a decoded value over 4,096 bytes                                its first raw byte
 *   11   more findings than room                                         findings needed
 *   12   merge: a list out of order, repeating a procedure and start,    number from 0 of the first such record, first list first
 *        a procedure not 1 to 38, a start not below its end
 *   13   merge: a document-only finding in one list alone, or one        the least such start
 *        procedure and start with two ends
 */
typedef struct {
    uint32_t refusal;
    size_t value;
} bd_numbers;

/* A part: the bytes from `first` to before `after`, of the document where `in_scratch` is 0, and of the scratch area where it is 1. */
typedef struct {
    uint32_t in_scratch;
    size_t first;
    size_t after;
} bd_part;

/* A finding: procedure, first byte, byte after, as three numbers of a list stand in memory. */
typedef struct {
    uint32_t procedure;
    uint32_t first;
    uint32_t after;
} bd_finding;

/* Checks a document under the tables. Lengths of `elements` and `list` count 32-bit numbers.
 *
 * `elements` gets four numbers for each element, in document order: its number from 0, its parent's (0 for the root), its first byte,
 * the byte after its end. `list` gets three numbers for each finding: procedure, first byte, byte after; ordered by first byte, then
 * procedure. Both are filled from the front, and the rest keeps its content. The first 4,096 bytes of `scratch` are then zero, the
 * others unchanged.
 *
 * Refuses with 1 to 11. Nothing lent changes on a refusal, but 10 and 11 leave `elements` and `scratch` as an unrefused check does.
 */
bd_numbers bd_check(const uint8_t *document, size_t document_length,
                    const uint8_t *tables, size_t tables_length,
                    uint8_t *scratch, size_t scratch_length,
                    uint32_t *elements, size_t elements_length,
                    uint32_t *list, size_t list_length);

/* Merges two lists of findings of one document into a third. `a_count` and `b_count` count findings; `out` is a list of numbers like that of
 * bd_check, and `out_length` counts numbers. Procedures 8, 18 and 34 stay where both lists have them, 6, 12, 21 and 22 where either has; all others stand in both. `out` is filled
 * from the front, and the rest keeps its content.
 *
 * Refuses with 12, 13 or 11, tested in this order. Nothing lent changes on a refusal.
 */
bd_numbers bd_merge(const bd_finding *a, size_t a_count,
                    const bd_finding *b, size_t b_count,
                    uint32_t *out, size_t out_length);

/* Reads the attribute `name`, or the text where `name` is empty, of the element from byte `first` to before byte `after` of the
 * document, as the element table has them.
 *
 * A value without references or dropped parts is shown as that part of the document; any other as the front of `scratch`, where only
 * the decoded bytes change. An absent value, `scratch` under 4,096 bytes, a range outside the document, not opening an element or, for a
 * text, not one element, or a fault of 5 to 8 in what is read shows an empty part of the document, with `scratch` unchanged.
 */
bd_part bd_value(const uint8_t *document, size_t document_length,
                 uint8_t *scratch, size_t scratch_length,
                 size_t first, size_t after,
                 const uint8_t *name, size_t name_length);

#ifdef __cplusplus
}
#endif

#endif
