/* Hurnavis from C and C++: whether a description is possible, and how an answer stands to a model.
 *
 * Link libhurnavis.a, which `rust/archive` writes to target/staticlib. It needs memcpy and memset only. c/example.c is a first
 * mark to copy.
 *
 * Every call returns 0, or the number of its refusal. An answer goes to a place that the caller lends. A refused call leaves
 * that place, and everything else that was lent to it, as it was.
 *
 * - A slice is a pointer and a length, counted in elements. No pointer is null, also where the length is 0.
 * - A pointer to uint64_t is aligned as that type is.
 * - What is lent for writing (words, bytes for a table, a draft, and the place of the answer) overlaps nothing else that the
 *   same call takes.
 * - No call allocates, keeps a pointer or keeps any state: threads may call at the same time, each with words of its own.
 *   Of the stack, no call that was tried took 512 KiB.
 */

#ifndef HURNAVIS_H
#define HURNAVIS_H

#include <stddef.h>
#include <stdint.h>

#ifdef __cplusplus
extern "C" {
#endif

/* The refusals. The first fault in order counts: 1; then entry by entry 2, 3, 4; then 6; then record by record 7, 8; then 9;
 * then 10. A call skips what it does not take. Of a text: 11; then 12; then 10. Of a draft: 16; then 1 for a 65th entry; then 2,
 * 3, 4. Later calls add refusals. 5 is unused. */
#define HURNAVIS_TABLE_LENGTH 1u     /* the table's length is 0, over 256 bytes, or not a multiple of 4 */
#define HURNAVIS_KIND 2u             /* an entry's kind is over 7 */
#define HURNAVIS_UNUSED_FIELD 3u     /* a field that the entry's kind does not use is not 0 */
#define HURNAVIS_REFERENCE 4u        /* an entry refers to itself or to a later one */
#define HURNAVIS_STRUCTURE_LENGTH 6u /* the structure's length is 0, over 3,072 bytes, or not a multiple of 3 */
#define HURNAVIS_RECORD 7u           /* the first record is no header, a later one is, a kind is 3, or a zero bit is 1 */
#define HURNAVIS_WORLD 8u            /* a world is not below the number of worlds */
#define HURNAVIS_ENTRY_NUMBER 9u     /* an entry number is not below the number of entries */
#define HURNAVIS_SPACE 10u           /* the lent words, or bytes for a table, are fewer than the call needs */
#define HURNAVIS_TEXT_GRAMMAR 11u    /* the text is outside the grammar; the empty text is */
#define HURNAVIS_TEXT_LIMIT 12u      /* the text is over 1,024 bytes, has a number over 255, or makes over 64 entries */
#define HURNAVIS_DRAFT 16u           /* no steps from a fresh draft give this one, or the name is over 15 or not saved */

/* The marks: how an answer that holds somewhere stands to the model; 4 is that of an answer that holds nowhere. */
#define HURNAVIS_EQUAL 0u      /* they hold at the same worlds of every finite structure */
#define HURNAVIS_NARROWER 1u   /* the answer never holds without the model, the model somewhere without the answer */
#define HURNAVIS_WIDER 2u      /* the reverse of narrower */
#define HURNAVIS_CROSSING 3u   /* each holds somewhere without the other */
#define HURNAVIS_IMPOSSIBLE 4u /* the answer holds at no world of any finite structure, whatever the model is */

/* A table is 1 to 64 entries of 4 bytes, numbered from 0. An entry is a description, and refers to earlier entries by their
 * numbers. Facts and relations are numbered 0 to 255; what they stand for is the caller's affair. An entry's 32 bits are kind
 * 4, name 8, first 6, second 6, grade 8, most significant first. These write the 4 bytes, for the initialiser of a table:
 *
 *     static const uint8_t table[] = {HURNAVIS_FACT(1), HURNAVIS_AT_LEAST(2, 7, 0)};
 *
 * A number that does not fit into its field makes the kind 15, so that every call refuses the table. */
#define HURNAVIS_TRUTH HURNAVIS_ENTRY_(0, 0, 0, 0, 0)
#define HURNAVIS_FALSITY HURNAVIS_ENTRY_(1, 0, 0, 0, 0)
#define HURNAVIS_FACT(name) HURNAVIS_ENTRY_(2, name, 0, 0, 0)
#define HURNAVIS_NOT(part) HURNAVIS_ENTRY_(3, 0, part, 0, 0)
#define HURNAVIS_AND(first, second) HURNAVIS_ENTRY_(4, 0, first, second, 0)
#define HURNAVIS_OR(first, second) HURNAVIS_ENTRY_(5, 0, first, second, 0)
/* At least, or at most, so many ("grade") links of the relation lead to worlds where the part holds. */
#define HURNAVIS_AT_LEAST(grade, relation, part) HURNAVIS_ENTRY_(6, relation, part, 0, grade)
#define HURNAVIS_AT_MOST(grade, relation, part) HURNAVIS_ENTRY_(7, relation, part, 0, grade)

/* An entry as one number, for hurnavis_draft_add: HURNAVIS_WORD(HURNAVIS_FACT(1)) is 0x20100000. */
#define HURNAVIS_WORD(entry) HURNAVIS_WORD_(entry)

/* Not for callers: the four bytes of an entry, whether its fields fit, and the number of its bytes. */
#define HURNAVIS_ENTRY_(kind, name, first, second, grade) \
    (uint8_t)(HURNAVIS_FITS_(name, first, second, grade) ? (kind) * 16u + ((name) / 16u) % 16u : 240u), \
    (uint8_t)(((name) % 16u) * 16u + ((first) / 4u) % 16u), \
    (uint8_t)(((first) % 4u) * 64u + (second) % 64u), \
    (uint8_t)((grade) % 256u)
#define HURNAVIS_FITS_(name, first, second, grade) \
    ((name) / 256u == 0u && (first) / 64u == 0u && (second) / 64u == 0u && (grade) / 256u == 0u)
#define HURNAVIS_WORD_(first, second, third, fourth) \
    ((uint32_t)(first) << 24 | (uint32_t)(second) << 16 | (uint32_t)(third) << 8 | (uint32_t)(fourth))

/* Checks a table. The other calls check it too. */
uint32_t hurnavis_check_table(const uint8_t *table, size_t table_len);

/* Gives the words to lend for a mark of the two entries, which are enough for a decision on either; for a decision alone, give
 * its entry twice. They are W = 8 x (d + 1) x (2 x n + G + 4), at most 8,325,120: n is the number of entries, d the greater
 * depth of the two (how deep "at least" and "at most" stand in each other), G the sum of (grade + 1) over all entries that are
 * "at least" or "at most". Refuses 1 to 4 and 9. */
uint32_t hurnavis_work_words(const uint8_t *table, size_t table_len, size_t model, size_t answer, uint64_t *words_needed);

/* Writes one word for each entry: bit w is 1 exactly when the entry holds at world w of the structure. Words behind the number
 * of entries are as before. A structure is 1 to 1,024 records of 3 bytes, most significant bit first. The first is the header:
 * 2 bits 0, 6 bits the number of worlds less 1, 16 zero bits. A fact: 2 bits 1, world 6, name 8, 8 zero bits. A link: 2 bits 2,
 * from 6, relation 8, to 6, 2 bits the number of its copies less 1. "At least" and "at most" count a link as often as it has
 * copies, 1 to 4; of a link that is stated again the greatest number counts. Refuses 1 to 8, and 10 for fewer words than
 * entries. */
uint32_t hurnavis_board(const uint8_t *table, size_t table_len, const uint8_t *structure, size_t structure_len,
                        uint64_t *words, size_t words_len);

/* Gives 1 if the entry holds at some world of some finite structure, 0 if at none. The words are work space; what stands in
 * them has no influence. After an answer the first W words are 0 and the others as before. Refuses 1 to 4, 9, and 10 for fewer
 * than W words. */
uint32_t hurnavis_decide(const uint8_t *table, size_t table_len, size_t entry, uint64_t *words, size_t words_len,
                         uint8_t *possible);

/* Gives the mark of the answer's entry beside the model's. Words and refusals are as for hurnavis_decide. */
uint32_t hurnavis_mark(const uint8_t *table, size_t table_len, size_t model, size_t answer, uint64_t *words,
                       size_t words_len, uint8_t *mark);

/* Reads a typed description, such as >=2 r7 (n1 & !n2), into a table of its own, and gives the number of entries; the last is
 * the description. The signs: T true, F false, n12 fact 12, ! not, & and, | or, >=2 r7 and <=2 r7 at least and at most 2 links
 * of relation 7, round brackets. ! and the counting signs stand before their part and bind closest, then &, then |; equal signs
 * group leftwards. Around signs there may be spaces (byte 32), or none; >=2 and r7 are two signs, and no space is in one.
 * Numbers are decimal without a leading zero. Each sign but the brackets makes an entry, >=2 r7 together one; parts stand before
 * their sign and left before right, nothing is shared. Bytes behind the table are as before; 256 are always enough. Refuses 11,
 * then 12, and 10 for fewer bytes than 4 for each entry.
 *
 * To have two texts in one table, read them as one, (model)&(answer): the answer is then the last entry but one, and the model
 * has the number that it has when it is read alone. */
uint32_t hurnavis_read_text(const uint8_t *text, size_t text_len, uint8_t *table, size_t table_len, uint8_t *entries);

/* A draft is a table under composition, to which an entry is added at a time. It is saved under a name, 0 to 15, and one can come
 * back to what was saved. It is 273 bytes that the caller keeps: 64 entries of 4 bytes, of which those behind the last are 0; the
 * number of entries; and for each name the number of entries that it was saved with, or 255 if it is not saved. The other calls
 * take the table of its entries:
 *
 *     hurnavis_check_table(draft, 4u * draft[HURNAVIS_DRAFT_ENTRIES])
 *
 * Bytes that no steps from a fresh draft give are refused with 16 before anything else, and so is every length but 273. */
#define HURNAVIS_DRAFT_BYTES 273u
#define HURNAVIS_DRAFT_ENTRIES 256u /* where the number of entries stands */
#define HURNAVIS_DRAFT_SAVED 257u   /* where the number of entries of name 0 stands; the other names' follow */
#define HURNAVIS_DRAFT_UNSAVED 255u /* what stands there if the name is not saved */

/* Makes the bytes a fresh draft, whatever they were: no entries, and no name saved. Refuses 16 for a length other than 273. */
uint32_t hurnavis_draft_new(uint8_t *draft, size_t draft_len);

/* Adds the entry behind the others. Refuses 16, then 1 for a 65th entry whatever it is, then 2, 3, 4 for the entry. */
uint32_t hurnavis_draft_add(uint8_t *draft, size_t draft_len, uint32_t entry);

/* Saves the draft under the name. What was saved under it before is replaced. Refuses 16, also for a name over 15. */
uint32_t hurnavis_draft_save(uint8_t *draft, size_t draft_len, uint8_t name);

/* Comes back to what was saved under the name: its entries stay, the bytes behind them become 0, and names that were saved with
 * more entries are forgotten. Refuses 16, also for a name over 15 or not saved. */
uint32_t hurnavis_draft_back(uint8_t *draft, size_t draft_len, uint8_t name);

#ifdef __cplusplus
}
#endif

#endif
