/* The library called from C, by what the header says alone: clubform's story with every number, length and the printed
 * text, the other changes, and every refusal, which changes no byte of the output buffer. It ends with 0 if all is as
 * it should be, and says what is not. */
#include "formstore.h"

#include <stdio.h>
#include <string.h>

enum { EMPTY = FORMSTORE_KIND_EMPTY, PCDATA = FORMSTORE_KIND_PCDATA, COMPLEX = FORMSTORE_KIND_COMPLEX };
enum { NONE = FORMSTORE_QUANTIFIER_NONE, QMARK = FORMSTORE_QUANTIFIER_QMARK };
enum { STAR = FORMSTORE_QUANTIFIER_STAR, PLUS = FORMSTORE_QUANTIFIER_PLUS };
enum { LIST = FORMSTORE_GROUP_LIST, CHOICE = FORMSTORE_GROUP_CHOICE };
enum { IMPLIED = FORMSTORE_ATTRIBUTE_IMPLIED, REQUIRED = FORMSTORE_ATTRIBUTE_REQUIRED };
enum { FIXED = FORMSTORE_ATTRIBUTE_FIXED };

/* The definitions of the story, by index. */
enum { RACE, FINISHER, BIB, TIME, CLUB };

/* A call reads the store in one buffer and writes the other, which is full of BACKGROUND before it. */
#define BACKGROUND 0xEE
static uint8_t buffers[2][FORMSTORE_LONGEST];
static int now;
static size_t length;

#define STORE buffers[now], length
#define OUT buffers[1 - now], FORMSTORE_LONGEST
#define BYTES(text) (const uint8_t *)(text), sizeof(text) - 1
#define PLACE(...) (const uint32_t[]){__VA_ARGS__}, sizeof((const uint32_t[]){__VA_ARGS__}) / sizeof(uint32_t)

static int calls;
static int wrong;
/* How often each number was answered. */
static int answered[FORMSTORE_BAD_TEXT + 1];

static void expect(const char *call, int holds, const char *what)
{
    if (!holds) {
        printf("%s: %s\n", call, what);
        wrong++;
    }
}

/* Whether the bytes from this one on are as they were before the call. */
static int kept_from(const uint8_t *buffer, size_t from, size_t size)
{
    for (size_t at = from; at < size; at++)
        if (buffer[at] != BACKGROUND)
            return 0;
    return 1;
}

static void count(struct formstore_answer answer)
{
    calls++;
    if (answer.number <= FORMSTORE_BAD_TEXT)
        answered[answer.number]++;
}

static int every_refusal(void)
{
    for (size_t number = FORMSTORE_BAD_STORE; number <= FORMSTORE_BAD_TEXT; number++)
        if (!answered[number])
            return 0;
    return 1;
}

/* The call is accepted and leaves a store of this length, from which the next one goes on. */
static void accept(const char *call, struct formstore_answer answer, size_t wanted)
{
    count(answer);
    expect(call, answer.number == FORMSTORE_ACCEPTED, "it was refused");
    expect(call, answer.length == wanted, "the length is another one");
    expect(call, kept_from(buffers[1 - now], answer.length, FORMSTORE_LONGEST), "a byte past the length was written");
    if (answer.number != FORMSTORE_ACCEPTED)
        return;
    now = 1 - now;
    length = answer.length;
    expect(call, formstore_check(STORE) == 0, "the store does not pass");
    memset(buffers[1 - now], BACKGROUND, FORMSTORE_LONGEST);
}

/* The call is refused with this number and leaves the output buffer alone. */
static void refuse(const char *call, struct formstore_answer answer, uint32_t wanted)
{
    count(answer);
    expect(call, answer.number == wanted, "the number is another one");
    expect(call, answer.length == 0, "the length is not 0");
    expect(call, kept_from(buffers[1 - now], 0, FORMSTORE_LONGEST), "the buffer was written");
    memset(buffers[1 - now], BACKGROUND, FORMSTORE_LONGEST);
}

static void fresh(void)
{
    static const uint8_t bytes[FORMSTORE_FRESH_LENGTH] = FORMSTORE_FRESH;
    now = 0;
    length = sizeof bytes;
    memcpy(buffers[now], bytes, sizeof bytes);
    memset(buffers[1 - now], BACKGROUND, FORMSTORE_LONGEST);
    expect("check", formstore_check(STORE) == 0, "a fresh store does not pass");
}

static void clubform(void)
{
    fresh();
    accept("create race", formstore_create_definition(STORE, BYTES("race"), COMPLEX, OUT), 60);
    accept("create finisher", formstore_create_definition(STORE, BYTES("finisher"), COMPLEX, OUT), 80);
    accept("create bib", formstore_create_definition(STORE, BYTES("bib"), PCDATA, OUT), 100);
    accept("create time", formstore_create_definition(STORE, BYTES("time"), PCDATA, OUT), 120);
    accept("finisher in race", formstore_insert_element(STORE, RACE, PLACE(0), FINISHER, STAR, BYTES(""), OUT), 124);
    accept("bib in finisher", formstore_insert_element(STORE, FINISHER, PLACE(0), BIB, NONE, BYTES("0"), OUT), 128);
    accept("time in finisher", formstore_insert_element(STORE, FINISHER, PLACE(1), TIME, NONE, BYTES("-"), OUT), 132);
    accept("new race", formstore_add_document(STORE, RACE, BYTES(""), OUT), 176);
    accept("add finisher", formstore_add_element(STORE, 1, 0, FINISHER, BYTES("7"), OUT), 396);
    accept("set the time", formstore_set_text(STORE, 5, BYTES("19:04"), OUT), 396);
    accept("create club", formstore_create_definition(STORE, BYTES("club"), PCDATA, OUT), 416);
    accept("club in finisher", formstore_insert_element(STORE, FINISHER, PLACE(1), CLUB, NONE, BYTES("none"), OUT), 508);
    accept("time to ?", formstore_change_quantifier(STORE, FINISHER, PLACE(3), QMARK, BYTES(""), OUT), 508);
    expect("clubform", formstore_next_serial(buffers[now]) == 9, "the next serial is not 9");
}

/* The store prints this text, and not into a buffer that is one byte shorter. */
static void prints(const char *call, const char *wanted)
{
    static uint8_t text[FORMSTORE_LONGEST_TEXT];
    size_t size = strlen(wanted);
    memset(text, BACKGROUND, sizeof text);
    struct formstore_answer answer = formstore_print(STORE, text, size - 1);
    expect(call, answer.number == FORMSTORE_BUFFER && answer.length == 0, "a short buffer is not refused");
    expect(call, kept_from(text, 0, sizeof text), "a refused print writes");
    answer = formstore_print(STORE, text, sizeof text);
    expect(call, answer.number == FORMSTORE_ACCEPTED && answer.length == size, "the text has another length");
    expect(call, memcmp(text, wanted, size) == 0, "the text is another one");
    expect(call, kept_from(text, size, sizeof text), "a byte past the text was written");
}

static const char printed[] = "<!ELEMENT race (finisher*)>\n"
                              "<!ELEMENT finisher (bib,club,time?)>\n"
                              "<!ELEMENT bib (#PCDATA)>\n"
                              "<!ELEMENT time (#PCDATA)>\n"
                              "<!ELEMENT club (#PCDATA)>\n"
                              "<race><finisher><bib>7</bib><club>none</club><time>19:04</time></finisher></race>\n";

static void clubform_prints(void)
{
    prints("print", printed);
}

/* On the store that clubform leaves. */
static void look_up(void)
{
    struct formstore_found found = formstore_look_up(STORE, 6);
    expect("look up 6", found.number == 0 && found.length == 5, "the time is not found");
    expect("look up 6", memcmp(buffers[now] + found.start, "19:04", 5) == 0, "it is another value");
    found = formstore_look_up(STORE, 5);
    expect("look up 5", found.number == FORMSTORE_NO_ROW && found.start == 0 && found.length == 0, "an element has a value");
    found = formstore_look_up(buffers[now], length - 1, 6);
    expect("look up 6", found.number == FORMSTORE_BAD_STORE && found.start == 0 && found.length == 0, "a short store is read");
    expect("check", formstore_check(buffers[now], 39) == FORMSTORE_BAD_STORE, "39 bytes pass");
}

/* On the store that clubform leaves. */
static void refusals(void)
{
    refuse("short store", formstore_destroy_definition(buffers[now], length - 1, CLUB, OUT), FORMSTORE_BAD_STORE);
    refuse("name of 17", formstore_create_definition(STORE, BYTES("seventeen-letters"), EMPTY, OUT), FORMSTORE_BAD_NAME);
    refuse("name of XML", formstore_create_definition(STORE, BYTES("xMlTime"), EMPTY, OUT), FORMSTORE_BAD_NAME);
    refuse("value with a line feed", formstore_set_text(STORE, 5, BYTES("19\n04"), OUT), FORMSTORE_BAD_VALUE);
    refuse("kind 3", formstore_create_definition(STORE, BYTES("team"), 3, OUT), FORMSTORE_BAD_CODE);
    refuse("club again", formstore_create_definition(STORE, BYTES("club"), EMPTY, OUT), FORMSTORE_TAKEN);
    refuse("definition 5", formstore_add_document(STORE, 5, BYTES(""), OUT), FORMSTORE_UNKNOWN);
    refuse("element 4", formstore_destroy_element(STORE, 4, OUT), FORMSTORE_NO_ROW);
    refuse("no place", formstore_remove_element(STORE, FINISHER, PLACE(1, 1), OUT), FORMSTORE_NO_PLACE);
    refuse("text of a race", formstore_set_text(STORE, 1, BYTES("x"), OUT), FORMSTORE_WRONG_KIND);
    refuse("destroy bib", formstore_destroy_definition(STORE, BIB, OUT), FORMSTORE_IN_USE);
    refuse("race in finisher", formstore_insert_element(STORE, FINISHER, PLACE(0), RACE, STAR, BYTES(""), OUT), FORMSTORE_ROUND);
    refuse("time to once", formstore_change_quantifier(STORE, FINISHER, PLACE(3), NONE, BYTES(""), OUT), FORMSTORE_DEFAULT);
    refuse("bib or club", formstore_convert_to_group(STORE, FINISHER, PLACE(1), 2, CHOICE, OUT), FORMSTORE_GROUPING);
    refuse("without bib", formstore_destroy_element(STORE, 3, OUT), FORMSTORE_NO_MATCH);
    refuse("short buffer", formstore_set_text(STORE, 5, BYTES("19:05"), buffers[1 - now], length - 1), FORMSTORE_BUFFER);
}

/* Sixty-four definitions are the most, and the last serials cannot be given. */
static void last_refusals(void)
{
    char name[] = "d00";
    fresh();
    for (size_t count = 0; count < FORMSTORE_MAX_DEFINITIONS; count++) {
        name[1] = (char)('0' + count / 10);
        name[2] = (char)('0' + count % 10);
        accept(name, formstore_create_definition(STORE, BYTES(name), COMPLEX, OUT), length + 20);
    }
    refuse("one more", formstore_create_definition(STORE, BYTES("more"), EMPTY, OUT), FORMSTORE_CEILING);
    memset(buffers[now] + 4, 0xFF, 4);
    expect("check", formstore_check(STORE) == 0, "the last next serial does not pass");
    refuse("no serial", formstore_add_document(STORE, 0, BYTES(""), OUT), FORMSTORE_SERIALS);
}

/* The changes that clubform does not make, from the store that it leaves. */
static void other_changes(void)
{
    accept("attribute", formstore_add_attribute(STORE, FINISHER, BYTES("sex"), REQUIRED, BYTES("f"), OUT), 604);
    accept("set attribute", formstore_set_attribute(STORE, 2, 0, BYTES("m"), OUT), 604);
    accept("another", formstore_add_attribute(STORE, FINISHER, BYTES("unit"), FIXED, BYTES("min"), OUT), 656);
    accept("set another", formstore_set_attribute(STORE, 2, 1, BYTES("min"), OUT), 700);
    accept("take its row", formstore_destroy_attribute_row(STORE, 2, 1, OUT), 656);
    accept("take it", formstore_destroy_attribute(STORE, 1, OUT), 604);
    accept("group", formstore_convert_to_group(STORE, FINISHER, PLACE(2), 2, LIST, OUT), 608);
    accept("group to +", formstore_change_group_quantifier(STORE, FINISHER, PLACE(2), PLUS, BYTES(""), OUT), 608);
    refuse("group to once", formstore_change_group_quantifier(STORE, FINISHER, PLACE(2), NONE, BYTES(""), OUT), FORMSTORE_OFF_SPINE);
    accept("without time", formstore_remove_element(STORE, FINISHER, PLACE(2, 2), OUT), 516);
    refuse("flatten", formstore_flatten_group(STORE, FINISHER, PLACE(2), OUT), FORMSTORE_GROUPING);
    accept("destroy time", formstore_destroy_definition(STORE, TIME, OUT), 496);
    accept("group bib", formstore_convert_to_group(STORE, FINISHER, PLACE(1), 1, CHOICE, OUT), 500);
    accept("flatten it", formstore_flatten_group(STORE, FINISHER, PLACE(1), OUT), 496);
    prints("print", "<!ELEMENT race (finisher*)>\n"
                    "<!ELEMENT finisher (bib,(club)+)>\n"
                    "<!ATTLIST finisher sex CDATA #REQUIRED>\n"
                    "<!ELEMENT bib (#PCDATA)>\n"
                    "<!ELEMENT club (#PCDATA)>\n"
                    "<race><finisher sex=\"m\"><bib>7</bib><club>none</club></finisher></race>\n");
    accept("destroy finisher", formstore_destroy_element(STORE, 2, OUT), 232);
    accept("implied", formstore_add_attribute(STORE, RACE, BYTES("day"), IMPLIED, BYTES(""), OUT), 284);
}

/* A new box, to which the club brings what the old one printed: the list is there again, its rows numbered anew. */
static void read_texts(void)
{
    refuse("no text of a store", formstore_read_text(BYTES("<race></race>\n"), OUT), FORMSTORE_BAD_TEXT);
    refuse("no line feed", formstore_read_text((const uint8_t *)printed, sizeof printed - 2, OUT), FORMSTORE_BAD_TEXT);
    refuse("nor a buffer", formstore_read_text(BYTES("<race></race>\n"), buffers[1 - now], 0), FORMSTORE_BAD_TEXT);
    refuse("short buffer", formstore_read_text(BYTES(printed), buffers[1 - now], 507), FORMSTORE_BUFFER);
    accept("empty text", formstore_read_text(BYTES(""), OUT), FORMSTORE_FRESH_LENGTH);
    accept("clubform's text", formstore_read_text(BYTES(printed), OUT), 508);
    expect("read", formstore_next_serial(buffers[now]) == 9, "the next serial is not 9");
    clubform_prints();
    accept("set the club", formstore_set_text(STORE, 5, BYTES("LG Nord"), OUT), 508);
    struct formstore_found found = formstore_look_up(STORE, 6);
    expect("look up 6", found.number == 0 && found.length == 7, "the club is not found");
}

int main(void)
{
    clubform();
    clubform_prints();
    look_up();
    refusals();
    clubform_prints();
    other_changes();
    last_refusals();
    read_texts();
    expect("refusals", every_refusal(), "a refusal was not met");
    printf("%d calls from C, %d wrong\n", calls, wrong);
    return wrong != 0;
}
