/* A box in small: a club makes its form, a finisher comes in, the form changes, and the list that stands in the box
 * follows it. Prints the DTD and the list. */
#include "formstore.h"

#include <stdio.h>
#include <stdlib.h>
#include <string.h>

/* The definitions, by index. */
enum { RACE, FINISHER, BIB, TIME, CLUB };

/* The store is in one of the buffers; a change writes the new one into the other. */
static uint8_t buffers[2][FORMSTORE_LONGEST] = {FORMSTORE_FRESH};
static int current;
static size_t length = FORMSTORE_FRESH_LENGTH;

#define STORE buffers[current], length
#define OUT buffers[1 - current], sizeof buffers[0]
#define TEXT(text) (const uint8_t *)(text), strlen(text)

/* What a change answers. A box would now write the new store to its flash; a refused one changes nothing. */
static void keep(struct formstore_answer answer)
{
    if (answer.number != FORMSTORE_ACCEPTED) {
        fprintf(stderr, "refused with %u\n", answer.number);
        exit(1);
    }
    current = 1 - current;
    length = answer.length;
}

static void create(const char *name, uint32_t kind)
{
    keep(formstore_create_definition(STORE, TEXT(name), kind, OUT));
}

/* In the model of the owner, after its first so many members. */
static void insert(uint32_t owner, uint32_t after, uint32_t definition, uint32_t quantifier, const char *text)
{
    const uint32_t place[] = {after};
    keep(formstore_insert_element(STORE, owner, place, 1, definition, quantifier, TEXT(text), OUT));
}

int main(void)
{
    static uint8_t text[FORMSTORE_LONGEST_TEXT];
    const uint32_t third[] = {3};

    create("race", FORMSTORE_KIND_COMPLEX);
    create("finisher", FORMSTORE_KIND_COMPLEX);
    create("bib", FORMSTORE_KIND_PCDATA);
    create("time", FORMSTORE_KIND_PCDATA);
    insert(RACE, 0, FINISHER, FORMSTORE_QUANTIFIER_STAR, "");
    insert(FINISHER, 0, BIB, FORMSTORE_QUANTIFIER_NONE, "0");
    insert(FINISHER, 1, TIME, FORMSTORE_QUANTIFIER_NONE, "-");

    /* The race gets serial 1, its finisher 2, with bib, its text, and time below: 3, 4 and 5. */
    keep(formstore_add_document(STORE, RACE, TEXT(""), OUT));
    keep(formstore_add_element(STORE, 1, 0, FINISHER, TEXT("7"), OUT));
    keep(formstore_set_text(STORE, 5, TEXT("19:04"), OUT));

    /* The club wants its name in the lists, and the time may be absent. */
    create("club", FORMSTORE_KIND_PCDATA);
    insert(FINISHER, 1, CLUB, FORMSTORE_QUANTIFIER_NONE, "none");
    keep(formstore_change_quantifier(STORE, FINISHER, third, 1, FORMSTORE_QUANTIFIER_QMARK, TEXT(""), OUT));

    struct formstore_answer answer = formstore_print(STORE, text, sizeof text);
    if (answer.number != FORMSTORE_ACCEPTED)
        return 1;
    return fwrite(text, 1, answer.length, stdout) != answer.length;
}
