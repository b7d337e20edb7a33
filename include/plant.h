/* plant.h: the plant register's core, as called from C or C++.
 *
 * An entry of the register carries a label of three packed codes: its start, its end and its parent's start. Which entry
 * stands before, above, directly above or beside which is read off two labels. A table of entries in document order gets
 * its first labels by plant_label. Where an entry stands in a register and how deep is asked by its identity. Later entries
 * are put in and taken out one by one; the labels of the others stay. The functions behind these calls are proved to meet
 * their contracts; what a caller has to see to stands under the word `caller`.
 *
 * Every buffer belongs to the caller: nothing is allocated, and no pointer is kept after a call. No state is kept either,
 * so calls may run in several threads as long as no thread writes to a buffer that is lent to a running call.
 *
 * Linking: cc program.c -Iinclude target/staticlib/libhost.a
 */
#ifndef PLANT_H
#define PLANT_H

#include <stddef.h>
#include <stdint.h>

#ifdef __cplusplus
extern "C" {
#endif

/* Code: at least one and at most 127 digits out of 1, 2 and 3, not ending in 1. Unpacked, each is a byte of its value, not '1'.
 * Field: a code packed in 32 bytes, four digits to a byte from the high bits down, and every bit behind the last digit zero.
 * This fill belongs to it: a code cut after its last digit is no field. The empty field has zero bytes only.
 * Label: the fields start, end and parent start, at 0, 32 and 64 of its 96 bytes. In a sound one start and end are codes, the
 * start below the end; the parent start is a code below both or, the root's, the empty field.
 * Below: of two codes the one with the lower digit where they first differ; if one goes on from the other, the shorter.
 * Table: for each entry, in document order, a row of identity, tag and depth. Depth 0 stands in the first row and in no other;
 * from one row to the next it rises by 1 at most, and 63 is the deepest. No identity is 0 or comes twice; any tag will do.
 * Register: a header with the number of entries at 0 and a zero at 4; behind it the entries in document order, which have their
 * identity at 0, their tag at 4 and their label at 8. These numbers have 4 bytes each, low byte first. */
#define PLANT_LONGEST 127 /* digits of the longest code */
#define PLANT_FIELD 32    /* bytes of a field */
#define PLANT_LABEL 96    /* bytes of a label */
#define PLANT_ROW 3       /* numbers of a table's row */
#define PLANT_ROWS 4096   /* rows of the longest table, entries of the largest register */
#define PLANT_HEADER 8    /* bytes of a register before its first entry */
#define PLANT_ENTRY 104   /* bytes of an entry */

/* A refused call answers one of these, plant_label with the row in it (see below), and writes nothing. Every refusal is below
 * -100000, every other answer above it; a test for "negative" will not do, since plant_order answers -1. Under `refuses` they
 * stand in the order they are tried. */
#define PLANT_REFUSED(n) (-(100000 + (n)))
#define PLANT_TABLE_SIZE PLANT_REFUSED(1)   /* table of 0 or more than 4,096 rows, or not a whole number of rows */
#define PLANT_ROW_DEPTH PLANT_REFUSED(2)    /* a depth breaks the table rule */
#define PLANT_IDENTITY PLANT_REFUSED(3)     /* identity 0 or already used */
#define PLANT_ROOM PLANT_REFUSED(4)         /* lent buffer short of what the result takes, or a register of 4,096 entries */
#define PLANT_NO_REGISTER PLANT_REFUSED(5)  /* not a sound register */
#define PLANT_NO_TARGET PLANT_REFUSED(6)    /* target not present */
#define PLANT_ROOT PLANT_REFUSED(7)         /* before, after or delete aimed at the root */
#define PLANT_CODE_LENGTH PLANT_REFUSED(8)  /* a needed code would pass 127 digits */
#define PLANT_CHILDREN PLANT_REFUSED(9)     /* deletion of an entry with children */
#define PLANT_DEPTH PLANT_REFUSED(10)       /* an entry's depth would pass 63 */
#define PLANT_NO_LABEL PLANT_REFUSED(11)    /* not a sound label, or not 96 bytes */
#define PLANT_NO_CODE PLANT_REFUSED(12)     /* not a code: wrong digits, or a field not of 32 bytes or unsound */
#define PLANT_NOT_BELOW PLANT_REFUSED(13)   /* both sides are codes and left is not below right */

/* A refusal of plant_label is one of the above less 1,000,000 times the row, from 0; the row is 0 where none is to blame. So
 * it is not compared with them as it stands: PLANT_REFUSAL_OF takes the row away, PLANT_ROW_OF answers the row. */
#define PLANT_REFUSAL_OF(answer) (((answer) + 100000) % 1000000 - 100000)
#define PLANT_ROW_OF(answer) (-((answer) + 100000) / 1000000)

/* Questions on two labels. The answer is fixed for any two sound labels; it speaks of a tree when both stand in one register. */

/* Which of u and v comes first in document order? An ancestor comes before its descendants.
 * takes     u, v: a label each; read only, kept no longer than the call, may overlap or be the same
 * answers   -1 u before v, 0 equal starts, 1 u after v
 * refuses   PLANT_NO_LABEL for either label; no other
 * writes    nothing
 * caller    u and v are not NULL, even for length 0, and point to u_len and v_len readable bytes
 * proved    labels::order, crates/labels/src/lib.rt */
int32_t plant_order(const uint8_t *u, size_t u_len, const uint8_t *v, size_t v_len);

/* Does u lie above v: is u an ancestor of v?
 * takes     u, v: a label each, the upper one first; read only, kept no longer than the call, may overlap or be the same
 * answers   1 yes: u's start is below v's start and v's end below u's end; 0 no
 * refuses   PLANT_NO_LABEL for either label; no other
 * writes    nothing
 * caller    u and v are not NULL, even for length 0, and point to u_len and v_len readable bytes
 * proved    labels::above, crates/labels/src/lib.rt */
int32_t plant_above(const uint8_t *u, size_t u_len, const uint8_t *v, size_t v_len);

/* Is u the parent of v?
 * takes     u, v: a label each, the upper one first; read only, kept no longer than the call, may overlap or be the same
 * answers   1 yes: v's parent start is not empty and equals u's start; 0 no
 * refuses   PLANT_NO_LABEL for either label; no other
 * writes    nothing
 * caller    u and v are not NULL, even for length 0, and point to u_len and v_len readable bytes
 * proved    labels::parent, crates/labels/src/lib.rt */
int32_t plant_parent(const uint8_t *u, size_t u_len, const uint8_t *v, size_t v_len);

/* Are u and v siblings: two children of one parent? No entry is its own sibling.
 * takes     u, v: a label each; read only, kept no longer than the call, may overlap or be the same
 * answers   1 yes: both parent starts are not empty and equal, and the starts differ; 0 no
 * refuses   PLANT_NO_LABEL for either label; no other
 * writes    nothing
 * caller    u and v are not NULL, even for length 0, and point to u_len and v_len readable bytes
 * proved    labels::sibling, crates/labels/src/lib.rt */
int32_t plant_sibling(const uint8_t *u, size_t u_len, const uint8_t *v, size_t v_len);

/* Codes and their fields. */

/* Packs the digits of a code into a field.
 * takes     digits: n digits, a byte each; read only, kept no longer than the call
 * answers   n
 * refuses   PLANT_NO_CODE if the digits are no code, PLANT_ROOM if len is below 32
 * writes    the first 32 bytes of field: the digits, then zero bits; bytes past them are kept; refused, nothing
 * caller    both pointers are not NULL, even for length 0; digits points to n readable bytes, field to len bytes that may be
 *           read and written; field does not overlap digits
 * proved    codes::Code::pack, crates/codes/src/lib.rt */
int32_t plant_pack(const uint8_t *digits, size_t n, uint8_t *field, size_t len);

/* Unpacks a field into the digits of its code.
 * takes     field: 32 bytes that hold a code; read only, kept no longer than the call
 * answers   the number of the code's digits
 * refuses   PLANT_NO_CODE if len is not 32 or the field is empty or unsound, PLANT_ROOM if n is below the number of digits
 * writes    the code's digits at the front of digits; bytes past them are kept; refused, nothing
 * caller    both pointers are not NULL, even for length 0; field points to len readable bytes, digits to n bytes that may be
 *           read and written; digits does not overlap field
 * proved    codes::Code::unpack, crates/codes/src/lib.rt */
int32_t plant_unpack(const uint8_t *field, size_t len, uint8_t *digits, size_t n);

/* Makes the one code between two codes; either side may be open.
 * takes     left, right: a field each, the empty field for an open side; read only, kept no longer than the call, may overlap
 *           or be the same
 * answers   the number of digits of the code made
 * refuses   PLANT_NO_CODE if a side is not of 32 bytes or is unsound, PLANT_NOT_BELOW if both are codes and left is not below
 *           right, PLANT_ROOM if len is below 32, PLANT_CODE_LENGTH if the code would pass 127 digits
 * writes    the first 32 bytes of field: the code made, packed; bytes past them are kept; refused, nothing
 * caller    no pointer is NULL, even for length 0; left and right point to l_len and r_len readable bytes, field to len bytes
 *           that may be read and written; field overlaps neither left nor right
 * proved    codes::Code::between, crates/codes/src/lib.rt */
int32_t plant_between(const uint8_t *left, size_t l_len, const uint8_t *right, size_t r_len, uint8_t *field, size_t len);

/* Tables and their registers. */

/* Writes the register of a table, each entry with its first label.
 * takes     table: rows of PLANT_ROW numbers, `numbers` in all, not the count of rows; read only, kept no longer than the call
 * answers   the bytes written: 8 + 104 x rows
 * refuses   PLANT_TABLE_SIZE if numbers is not 3 times 1 to 4,096; then for the first row from the top that breaks a rule,
 *           with that row, PLANT_ROW_DEPTH for its depth, else PLANT_IDENTITY if its identity is 0 or stands in a row above;
 *           then PLANT_ROOM if len is below 8 + 104 x rows
 * writes    the first 8 + 104 x rows bytes of reg; bytes past them are kept; refused, nothing
 * caller    both pointers are not NULL, even for length 0; table is aligned for its type and points to that many readable
 *           numbers, reg to len bytes that may be read and written; reg does not overlap table; 48 KB of stack are free
 * proved    tables::label, crates/tables/src/lib.rt */
int64_t plant_label(const uint32_t *table, size_t numbers, uint8_t *reg, size_t len);

/* Questions on a register. Each looks at the whole register first, however small the question. A register is sound when
 * - its count is 1 to 4,096, the number at 4 is 0 and the buffer holds 8 + 104 x count bytes or more;
 * - its identities are not 0 and all different; a tag is any number;
 * - every start and end is a code; so is every parent start but the first entry's, which is empty: that entry is the root;
 * - its entries stand in document order of a tree with that one root and no depth above 63, in which the codes rise strictly
 *   along the tour that meets an entry's start, then its children one after another, then its end;
 * - every other entry's parent start is the start of its parent in that tree.
 * The codes need not be those plant_label gives. Bytes past the counted entries are not looked at. */

/* At which place does an entry stand?
 * takes     reg: a register; identity: that of the entry; read only, kept no longer than the call
 * answers   the place, from 0 in document order: the root's is 0
 * refuses   PLANT_NO_REGISTER if reg holds no sound register, PLANT_NO_TARGET if no entry has the identity
 * writes    nothing
 * caller    reg is not NULL, even for length 0, and points to len readable bytes; 64 KB of stack are free
 * proved    registers::place, crates/registers/src/lib.rt */
int32_t plant_place(const uint8_t *reg, size_t len, uint32_t identity);

/* How deep does an entry stand?
 * takes     reg: a register; identity: that of the entry; read only, kept no longer than the call
 * answers   the number of its ancestors, 0 to 63: the root's is 0
 * refuses   PLANT_NO_REGISTER if reg holds no sound register, PLANT_NO_TARGET if no entry has the identity
 * writes    nothing
 * caller    reg is not NULL, even for length 0, and points to len readable bytes; 64 KB of stack are free
 * proved    registers::depth, crates/registers/src/lib.rt */
int32_t plant_depth(const uint8_t *reg, size_t len, uint32_t identity);

/* How far is it from entry x to entry y?
 * takes     reg: a register; x, y: identities of two entries, or of one; read only, kept no longer than the call
 * answers   the place of y minus the place of x, -4,095 to 4,095
 * refuses   PLANT_NO_REGISTER if reg holds no sound register, PLANT_NO_TARGET if no entry has the identity x, or none y
 * writes    nothing
 * caller    reg is not NULL, even for length 0, and points to len readable bytes; 64 KB of stack are free
 * proved    registers::distance, crates/registers/src/lib.rt */
int32_t plant_distance(const uint8_t *reg, size_t len, uint32_t x, uint32_t y);

/* Edits of a register. Each looks at the whole register first, as the questions do. No other entry's identity, tag or label
 * changes: later entries only move. An identity that was taken out may be put in again. */

/* Puts an entry without children in: as first child of a target, as last child of it, directly before it, or directly after
 * it, which is behind all that lies under it.
 * takes     reg: a register; target: the identity of the entry that names the place; identity, tag: those of the new entry
 * answers   the new entry's place, from 0 in document order
 * refuses   PLANT_NO_REGISTER if reg holds no sound register, PLANT_NO_TARGET if no entry has the identity target, PLANT_ROOT
 *           if the target of before or after is the root, PLANT_IDENTITY if identity is 0 or that of an entry, PLANT_DEPTH if
 *           the new entry's depth would pass 63, PLANT_ROOM if the register has 4,096 entries or len is below
 *           8 + 104 x (count + 1), PLANT_CODE_LENGTH if its start or its end would pass 127 digits
 * writes    the count; the new entry at its place; the later entries, each 104 bytes further up; bytes past them are kept;
 *           refused, nothing. With L and R the two codes that stand next to the place along the tour, the new start is the
 *           one that plant_between makes of L and R, the new end the one that it makes of the new start and R
 * caller    reg is not NULL, even for length 0, and points to len bytes that may be read and written; 64 KB of stack are free
 * proved    edits::apply, crates/edits/src/lib.rt */
int32_t plant_insert_first(uint8_t *reg, size_t len, uint32_t target, uint32_t identity, uint32_t tag);
int32_t plant_insert_last(uint8_t *reg, size_t len, uint32_t target, uint32_t identity, uint32_t tag);
int32_t plant_insert_before(uint8_t *reg, size_t len, uint32_t target, uint32_t identity, uint32_t tag);
int32_t plant_insert_after(uint8_t *reg, size_t len, uint32_t target, uint32_t identity, uint32_t tag);

/* Takes an entry without children out.
 * takes     reg: a register; target: the identity of the entry
 * answers   the place that the entry had, from 0 in document order
 * refuses   PLANT_NO_REGISTER if reg holds no sound register, PLANT_NO_TARGET if no entry has the identity target, PLANT_ROOT
 *           if it is the root, PLANT_CHILDREN if it has children
 * writes    the count; the later entries, each 104 bytes further down; zero to the 104 bytes that the last one left; bytes
 *           past them are kept; refused, nothing
 * caller    reg is not NULL, even for length 0, and points to len bytes that may be read and written; 64 KB of stack are free
 * proved    edits::apply, crates/edits/src/lib.rt */
int32_t plant_delete(uint8_t *reg, size_t len, uint32_t target);

#ifdef __cplusplus
}
#endif

#endif
