/* Tests of the header: what the entry macros write, the constant of each refusal beside a call that gives it, a board of links
 * with copies, and that a refused call leaves the place of its answer, and a draft, as it was. It prints nothing; its status is 1
 * after a fault. */

#include "hurnavis.h"

#include <stdio.h>
#include <string.h>

static int faults = 0;

static void expect(int holds, const char *what)
{
    if (!holds) {
        fprintf(stderr, "check.c: not so: %s\n", what);
        faults = 1;
    }
}

#define EXPECT(condition) expect((condition), #condition)
#define SAME(one, other) expect(sizeof one == sizeof other && memcmp(one, other, sizeof one) == 0, #one " is " #other)

static const uint8_t every_kind[] = {
    HURNAVIS_TRUTH, HURNAVIS_FALSITY, HURNAVIS_FACT(0xab), HURNAVIS_NOT(2),
    HURNAVIS_AND(2, 3), HURNAVIS_OR(4, 1), HURNAVIS_AT_LEAST(255, 0xcd, 5), HURNAVIS_AT_MOST(0, 255, 6)
};
static const uint8_t every_kind_packed[] = {
    0x00, 0, 0, 0, 0x10, 0, 0, 0, 0x2a, 0xb0, 0, 0, 0x30, 0, 0x80, 0,
    0x40, 0, 0x83, 0, 0x50, 1, 0x01, 0, 0x6c, 0xd1, 0x40, 0xff, 0x7f, 0xf1, 0x80, 0
};
static const uint8_t greatest[] = {HURNAVIS_OR(62, 63)};
static const uint8_t greatest_packed[] = {0x50, 0x0f, 0xbf, 0};

static uint32_t kind_of(const uint8_t *entry)
{
    return entry[0] / 16u;
}

/* What does not fit is kind 15, and nothing else. */
static void unfitting(void)
{
    const uint8_t name[] = {HURNAVIS_FACT(256)}, less[] = {HURNAVIS_FACT(-1)};
    const uint8_t part[] = {HURNAVIS_NOT(64)}, second[] = {HURNAVIS_OR(0, 64)};
    const uint8_t grade[] = {HURNAVIS_AT_MOST(256, 0, 0)};

    EXPECT(kind_of(name) == 15 && kind_of(less) == 15 && kind_of(part) == 15);
    EXPECT(kind_of(second) == 15 && kind_of(grade) == 15);
    EXPECT(hurnavis_check_table(name, sizeof name) == HURNAVIS_KIND);
}

static void refusals_of_tables(void)
{
    const uint8_t unused[] = {0, 0, 0, 1}, itself[] = {HURNAVIS_NOT(0)};

    EXPECT(hurnavis_check_table(every_kind, sizeof every_kind) == 0);
    EXPECT(hurnavis_check_table(every_kind, 0) == HURNAVIS_TABLE_LENGTH);
    EXPECT(hurnavis_check_table(every_kind, 3) == HURNAVIS_TABLE_LENGTH);
    EXPECT(hurnavis_check_table(unused, sizeof unused) == HURNAVIS_UNUSED_FIELD);
    EXPECT(hurnavis_check_table(itself, sizeof itself) == HURNAVIS_REFERENCE);
}

/* 63 counting entries over one fact. W = 8 x (63 + 1) x (2 x 64 + 63 x 2 + 4). */
static void deepest(void)
{
    uint8_t table[256] = {HURNAVIS_FACT(0)};
    uint64_t needed = 0;
    size_t i;

    for (i = 1; i < 64; i++) {
        const uint8_t entry[] = {HURNAVIS_AT_LEAST(1, 7, i - 1)};
        memcpy(table + 4 * i, entry, sizeof entry);
    }
    EXPECT(hurnavis_check_table(table, sizeof table) == 0);
    EXPECT(hurnavis_work_words(table, sizeof table, 63, 63, &needed) == 0 && needed == 132096);
}

/* Two worlds, a link of relation 0 from world 1 to world 0. */
static void refusals_of_structures(void)
{
    static const uint8_t table[] = {HURNAVIS_TRUTH, HURNAVIS_AT_LEAST(1, 0, 0)};
    uint8_t structure[] = {1, 0, 0, 0x81, 0, 0};
    uint64_t words[] = {7, 7, 7};

    EXPECT(hurnavis_board(table, sizeof table, structure, 4, words, 3) == HURNAVIS_STRUCTURE_LENGTH);
    EXPECT(hurnavis_board(table, sizeof table, structure + 3, 3, words, 3) == HURNAVIS_RECORD);
    EXPECT(hurnavis_board(table, sizeof table, structure, sizeof structure, words, 1) == HURNAVIS_SPACE);
    structure[3] = 0x82;
    EXPECT(hurnavis_board(table, sizeof table, structure, sizeof structure, words, 3) == HURNAVIS_WORLD);
    EXPECT(words[0] == 7 && words[1] == 7 && words[2] == 7);
    structure[3] = 0x81;
    EXPECT(hurnavis_board(table, sizeof table, structure, sizeof structure, words, 3) == 0);
    EXPECT(words[0] == 3 && words[1] == 2 && words[2] == 7);
}

/* Three worlds. From world 0 a link of relation 7 leads to world 1, stated with 2, 4 and 1 copies, and one of 3 copies to world
 * 2, where fact 1 holds: 4 + 3 copies in all, 3 to the fact. */
static void copies(void)
{
    static const uint8_t table[] = {
        HURNAVIS_TRUTH, HURNAVIS_FACT(1), HURNAVIS_AT_LEAST(7, 7, 0), HURNAVIS_AT_LEAST(8, 7, 0),
        HURNAVIS_AT_MOST(6, 7, 0), HURNAVIS_AT_LEAST(3, 7, 1), HURNAVIS_AT_MOST(2, 7, 1)
    };
    uint8_t structure[] = {2, 0, 0, 0x42, 1, 0, 0x80, 7, 5, 0x80, 7, 7, 0x80, 7, 4, 0x80, 7, 10};
    static const uint64_t before[] = {9, 9, 9, 9, 9, 9, 9, 9}, after[] = {7, 4, 1, 0, 6, 1, 6, 9};
    uint64_t words[] = {9, 9, 9, 9, 9, 9, 9, 9};

    structure[5] = 1; /* a zero bit of the fact */
    EXPECT(hurnavis_board(table, sizeof table, structure, sizeof structure, words, 8) == HURNAVIS_RECORD);
    structure[5] = 0;
    structure[2] = 2; /* one of the header */
    EXPECT(hurnavis_board(table, sizeof table, structure, sizeof structure, words, 8) == HURNAVIS_RECORD);
    structure[2] = 0;
    structure[17] = 15; /* four copies to a world that is not there */
    EXPECT(hurnavis_board(table, sizeof table, structure, sizeof structure, words, 8) == HURNAVIS_WORLD);
    structure[17] = 10;
    SAME(words, before);
    EXPECT(hurnavis_board(table, sizeof table, structure, sizeof structure, words, 8) == 0);
    SAME(words, after);
}

/* The bytes beside the place of the answer are nobody's to write either. */
static void places_of_answers(void)
{
    static const uint8_t table[] = {HURNAVIS_FACT(0), HURNAVIS_FALSITY};
    uint64_t words[64] = {0}, needed[] = {7, 7, 7};
    uint8_t place[] = {9, 9, 9};

    EXPECT(hurnavis_work_words(table, sizeof table, 0, 2, needed + 1) == HURNAVIS_ENTRY_NUMBER && needed[1] == 7);
    EXPECT(hurnavis_work_words(table, sizeof table, 0, 1, needed + 1) == 0 && needed[1] == 64);
    EXPECT(needed[0] == 7 && needed[2] == 7);
    EXPECT(hurnavis_decide(table, sizeof table, 2, words, 64, place + 1) == HURNAVIS_ENTRY_NUMBER && place[1] == 9);
    EXPECT(hurnavis_decide(table, sizeof table, 0, words, 63, place + 1) == HURNAVIS_SPACE && place[1] == 9);
    EXPECT(hurnavis_mark(table, sizeof table, 0, 1, words, 63, place + 1) == HURNAVIS_SPACE && place[1] == 9);
    EXPECT(hurnavis_decide(table, sizeof table, 0, words, 64, place + 1) == 0 && place[1] == 1);
    EXPECT(hurnavis_decide(table, sizeof table, 1, words, 64, place + 1) == 0 && place[1] == 0);
    EXPECT(hurnavis_mark(table, sizeof table, 0, 0, words, 64, place + 1) == 0 && place[1] == HURNAVIS_EQUAL);
    EXPECT(hurnavis_mark(table, sizeof table, 0, 1, words, 64, place + 1) == 0 && place[1] == HURNAVIS_IMPOSSIBLE);
    EXPECT(hurnavis_mark(table, sizeof table, 1, 1, words, 64, place + 1) == 0 && place[1] == HURNAVIS_IMPOSSIBLE);
    EXPECT(hurnavis_mark(table, sizeof table, 1, 0, words, 64, place + 1) == 0 && place[1] == HURNAVIS_WIDER);
    EXPECT(HURNAVIS_NARROWER == 1 && HURNAVIS_CROSSING == 3 && HURNAVIS_IMPOSSIBLE == 4);
    EXPECT(place[0] == 9 && place[2] == 9);
}

static uint32_t read_text(const char *text, uint8_t *table, size_t table_len, uint8_t *entries)
{
    return hurnavis_read_text((const uint8_t *)text, strlen(text), table, table_len, entries);
}

/* A model and an answer in one text, with room for one byte more than the table, and a refusal of each number. */
static void texts(void)
{
    static const uint8_t packed[] = {
        HURNAVIS_FACT(1), HURNAVIS_AT_LEAST(2, 7, 0), HURNAVIS_FACT(12), HURNAVIS_NOT(2), HURNAVIS_TRUTH,
        HURNAVIS_AND(3, 4), HURNAVIS_FALSITY, HURNAVIS_OR(5, 6), HURNAVIS_AT_MOST(0, 255, 7), HURNAVIS_AND(1, 8)
    };
    static const char text[] = "(>=2 r7 n1)&(<=0r255(!n12 & T | F))", cut[] = "(>=2 r7 n1)&", great[] = "n1 & n256";
    uint8_t table[sizeof packed + 1], before[sizeof table], place[] = {9, 9, 9};

    memset(before, 0xa5, sizeof before);
    memcpy(table, before, sizeof table);
    EXPECT(read_text("", table, sizeof table, place + 1) == HURNAVIS_TEXT_GRAMMAR);
    EXPECT(read_text(cut, table, sizeof table, place + 1) == HURNAVIS_TEXT_GRAMMAR);
    EXPECT(read_text(great, table, sizeof table, place + 1) == HURNAVIS_TEXT_LIMIT);
    EXPECT(read_text(text, table, sizeof packed - 1, place + 1) == HURNAVIS_SPACE && place[1] == 9);
    SAME(table, before);
    EXPECT(read_text(text, table, sizeof table, place + 1) == 0 && place[1] == 10);
    EXPECT(memcmp(table, packed, sizeof packed) == 0 && table[sizeof packed] == 0xa5);
    EXPECT(hurnavis_check_table(table, sizeof packed) == 0);
    EXPECT(place[0] == 9 && place[2] == 9);
}

/* An entry as one number is its bytes, most significant first. */
static void words_of_entries(void)
{
    EXPECT(HURNAVIS_WORD(HURNAVIS_TRUTH) == 0 && HURNAVIS_WORD(HURNAVIS_FACT(0xab)) == 0x2ab00000u);
    EXPECT(HURNAVIS_WORD(HURNAVIS_OR(62, 63)) == 0x500fbf00u && HURNAVIS_WORD(HURNAVIS_FACT(256)) >> 28 == 15);
    EXPECT(HURNAVIS_WORD(HURNAVIS_AT_LEAST(255, 0xcd, 5)) == 0x6cd140ffu);
}

/* A fact and its negation; the fact alone is saved under name 15, both under name 0. */
static void drafts(void)
{
    static const uint8_t both[] = {HURNAVIS_FACT(1), HURNAVIS_NOT(0)}, zeros[252] = {0};
    uint8_t lent[HURNAVIS_DRAFT_BYTES + 2];
    uint8_t *const draft = lent + 1;
    const size_t length = HURNAVIS_DRAFT_BYTES;
    size_t i;

    memset(lent, 0xa5, sizeof lent);
    EXPECT(hurnavis_draft_new(draft, length) == 0 && draft[HURNAVIS_DRAFT_ENTRIES] == 0);
    for (i = HURNAVIS_DRAFT_SAVED; i < length; i++) {
        EXPECT(draft[i] == HURNAVIS_DRAFT_UNSAVED);
    }
    EXPECT(hurnavis_draft_add(draft, length, HURNAVIS_WORD(HURNAVIS_FACT(1))) == 0);
    EXPECT(hurnavis_draft_save(draft, length, 15) == 0 && draft[HURNAVIS_DRAFT_SAVED + 15] == 1);
    EXPECT(hurnavis_draft_add(draft, length, HURNAVIS_WORD(HURNAVIS_NOT(0))) == 0);
    EXPECT(hurnavis_draft_save(draft, length, 0) == 0 && draft[HURNAVIS_DRAFT_SAVED] == 2);
    EXPECT(draft[HURNAVIS_DRAFT_ENTRIES] == 2 && memcmp(draft, both, sizeof both) == 0);
    EXPECT(hurnavis_check_table(draft, 4u * draft[HURNAVIS_DRAFT_ENTRIES]) == 0);
    EXPECT(hurnavis_draft_back(draft, length, 15) == 0 && draft[HURNAVIS_DRAFT_ENTRIES] == 1);
    EXPECT(memcmp(draft, both, 4) == 0 && memcmp(draft + 4, zeros, sizeof zeros) == 0);
    EXPECT(draft[HURNAVIS_DRAFT_SAVED] == HURNAVIS_DRAFT_UNSAVED && draft[HURNAVIS_DRAFT_SAVED + 15] == 1);
    EXPECT(lent[0] == 0xa5 && lent[sizeof lent - 1] == 0xa5);
}

static void refusals_of_drafts(void)
{
    uint8_t draft[HURNAVIS_DRAFT_BYTES + 1], before[sizeof draft];
    const size_t length = HURNAVIS_DRAFT_BYTES;

    EXPECT(hurnavis_draft_new(draft, length) == 0 && hurnavis_draft_add(draft, length, 0) == 0);
    draft[length] = HURNAVIS_DRAFT_UNSAVED;
    memcpy(before, draft, sizeof draft);
    EXPECT(hurnavis_draft_new(draft, length - 1) == HURNAVIS_DRAFT);
    EXPECT(hurnavis_draft_add(draft, length + 1, 0) == HURNAVIS_DRAFT);
    EXPECT(hurnavis_draft_save(draft, length, 16) == HURNAVIS_DRAFT);
    EXPECT(hurnavis_draft_back(draft, length, 0) == HURNAVIS_DRAFT);
    EXPECT(hurnavis_draft_add(draft, length, HURNAVIS_WORD(HURNAVIS_NOT(64))) == HURNAVIS_KIND);
    EXPECT(hurnavis_draft_add(draft, length, 1) == HURNAVIS_UNUSED_FIELD);
    EXPECT(hurnavis_draft_add(draft, length, HURNAVIS_WORD(HURNAVIS_NOT(1))) == HURNAVIS_REFERENCE);
    SAME(draft, before);
}

/* As many entries as there can be; 16 comes before 1, and 1 before 2. */
static void full_draft(void)
{
    uint8_t draft[HURNAVIS_DRAFT_BYTES], before[sizeof draft];
    uint32_t i;

    EXPECT(hurnavis_draft_new(draft, sizeof draft) == 0);
    for (i = 0; i < 64; i++) {
        EXPECT(hurnavis_draft_add(draft, sizeof draft, HURNAVIS_WORD(HURNAVIS_FACT(i))) == 0);
    }
    EXPECT(hurnavis_check_table(draft, 4u * draft[HURNAVIS_DRAFT_ENTRIES]) == 0);
    memcpy(before, draft, sizeof draft);
    EXPECT(hurnavis_draft_add(draft, sizeof draft, 0xffffffffu) == HURNAVIS_TABLE_LENGTH);
    SAME(draft, before);
    draft[HURNAVIS_DRAFT_SAVED] = 65;
    before[HURNAVIS_DRAFT_SAVED] = 65;
    EXPECT(hurnavis_draft_add(draft, sizeof draft, 0xffffffffu) == HURNAVIS_DRAFT);
    EXPECT(hurnavis_draft_back(draft, sizeof draft, 0) == HURNAVIS_DRAFT);
    SAME(draft, before);
}

int main(void)
{
    SAME(every_kind, every_kind_packed);
    SAME(greatest, greatest_packed);
    unfitting();
    refusals_of_tables();
    deepest();
    refusals_of_structures();
    copies();
    places_of_answers();
    texts();
    words_of_entries();
    drafts();
    refusals_of_drafts();
    full_draft();
    return faults;
}
