/* A first mark. The model asks for at least 2 children who are doctors, the answer for at least 3: the answer is narrower.
 * It prints `model 1 answer 1 mark 1`: both are possible, and mark 1 is HURNAVIS_NARROWER.
 *
 * From the repository's root, after `rust/archive`:
 *
 *     cc -std=c99 -Irust/include rust/c/example.c target/staticlib/libhurnavis.a -o example && ./example
 */

#include "hurnavis.h"

#include <stdio.h>
#include <stdlib.h>

/* What the numbers stand for is yours to say: facts and relations go from 0 to 255. */
#define DOCTOR 1
#define CHILD 7

/* The descriptions, numbered from 0. Each refers to earlier ones by their numbers. */
static const uint8_t table[] = {
    HURNAVIS_FACT(DOCTOR),          /* 0: is a doctor */
    HURNAVIS_AT_LEAST(2, CHILD, 0), /* 1: has at least 2 children who are (0) */
    HURNAVIS_AT_LEAST(3, CHILD, 0)  /* 2: has at least 3 children who are (0) */
};

/* A call gives 0, or the number of its refusal, a HURNAVIS_ constant such as HURNAVIS_SPACE. */
static void check(const char *call, uint32_t refusal)
{
    if (refusal != 0) {
        fprintf(stderr, "%s: refused %u\n", call, (unsigned)refusal);
        exit(1);
    }
}

int main(void)
{
    const size_t model = 1, answer = 2;
    uint64_t needed = 0;
    uint64_t *words;
    uint8_t model_possible = 0, answer_possible = 0, mark = 0;

    /* How many words to lend for this mark; they are enough for the two decisions too. */
    check("work_words", hurnavis_work_words(table, sizeof table, model, answer, &needed));
    words = (uint64_t *)malloc((size_t)needed * sizeof *words);
    if (words == NULL) {
        fprintf(stderr, "no memory for %lu words\n", (unsigned long)needed);
        return 1;
    }

    check("decide", hurnavis_decide(table, sizeof table, model, words, (size_t)needed, &model_possible));
    check("decide", hurnavis_decide(table, sizeof table, answer, words, (size_t)needed, &answer_possible));
    check("mark", hurnavis_mark(table, sizeof table, model, answer, words, (size_t)needed, &mark));
    printf("model %u answer %u mark %u\n", model_possible, answer_possible, mark);

    /* A refusal: the table has no entry 3. The mark is then what it was before. */
    if (hurnavis_mark(table, sizeof table, model, 3, words, (size_t)needed, &mark) != HURNAVIS_ENTRY_NUMBER
        || mark != HURNAVIS_NARROWER) {
        return 1;
    }

    free(words);
    return 0;
}
