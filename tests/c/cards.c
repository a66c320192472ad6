/* The two entries for cards as a C program sees them. Every slice lies in a heap block of exactly its length, so that valgrind sees any byte read or written
   outside. After each call: the inputs are as they were, and so is every byte of the buffers that the answer does not claim. Exit status 1 if a check fails. */
#include <stdio.h>
#include <stdlib.h>
#include <string.h>

#include "xkbrules.h"

typedef struct {
    const void *bytes;
    size_t len;
} slice;

enum { MODEL, LAYOUTS, VARIANTS, OPTIONS, TEXTS, SHEET, INPUTS };

static unsigned long checks, failures;

static void check(int holds, const char *what, const char *about)
{
    checks++;
    if (!holds) {
        failures++;
        printf("tests/c: cards: %s: not %s\n", about, what);
    }
}

static slice of(const char *s)
{
    slice r = {s, strlen(s)};
    return r;
}

/* A block of exactly n bytes; for n = 0 a block that no byte of may be touched. */
static uint8_t *block(size_t n)
{
    uint8_t *p = malloc(n);
    if (p == NULL && n != 0) {
        perror("tests/c");
        exit(2);
    }
    return p;
}

static uint8_t *copied(slice s)
{
    uint8_t *p = block(s.len);
    if (s.len != 0)
        memcpy(p, s.bytes, s.len);
    return p;
}

static uint8_t pattern(size_t i)
{
    return (uint8_t)(0x80 + i % 97);
}

static uint8_t *patterned(size_t n)
{
    uint8_t *p = block(n);
    for (size_t i = 0; i < n; i++)
        p[i] = pattern(i);
    return p;
}

static int untouched(const uint8_t *p, size_t from, size_t n)
{
    for (size_t i = from; i < n; i++)
        if (p[i] != pattern(i))
            return 0;
    return 1;
}

static void put_lengths(uint8_t *sheet, const uint32_t *lengths)
{
    for (size_t i = 0; i < 10; i++)
        for (size_t b = 0; b < 4; b++)
            sheet[4 * i + b] = (uint8_t)(lengths[i] >> (8 * b));
}

/* Writes into a card of this room, and holds the answer and the card to what they have to be; card is NULL where the answer is a refusal. */
static void writes(const slice in[INPUTS], size_t room, uint64_t want, const uint8_t *card, const char *about)
{
    uint8_t *lent[INPUTS], *out = patterned(room);
    uint64_t answer;

    for (int i = 0; i < INPUTS; i++)
        lent[i] = copied(in[i]);
    answer = xkbrules_card_write(lent[MODEL], in[MODEL].len, lent[LAYOUTS], in[LAYOUTS].len, lent[VARIANTS], in[VARIANTS].len,
                                 lent[OPTIONS], in[OPTIONS].len, lent[TEXTS], in[TEXTS].len, lent[SHEET], in[SHEET].len, out, room);
    check(answer == want, "the answer of a writing", about);
    if (card == NULL) {
        check(xkbrules_number(answer) != XKBRULES_ACCEPTED, "a refusal", about);
        check(untouched(out, 0, room), "a card untouched at a refusal", about);
    } else if (answer == want) {
        check(xkbrules_number(answer) == XKBRULES_ACCEPTED, "accepted", about);
        check(memcmp(out, card, (size_t)want) == 0, "the bytes of the card", about);
        check(untouched(out, (size_t)want, room), "bytes untouched behind the card", about);
    }
    for (int i = 0; i < INPUTS; i++) {
        check(in[i].len == 0 || memcmp(lent[i], in[i].bytes, in[i].len) == 0, "an input as it was", about);
        free(lent[i]);
    }
    free(out);
}

/* Reads a card into these lengths of buffers; texts and lengths are NULL where the answer is a refusal. */
static void reads(slice card, size_t room, size_t sheet_len, uint64_t want, slice texts, const uint32_t *lengths, const char *about)
{
    uint8_t *lent = copied(card), *out = patterned(room), *sheet = patterned(sheet_len);
    uint64_t answer = xkbrules_card_read(lent, card.len, out, room, sheet, sheet_len);

    check(answer == want, "the answer of a reading", about);
    if (lengths == NULL) {
        check(untouched(out, 0, room) && untouched(sheet, 0, sheet_len), "both buffers untouched at a refusal", about);
    } else if (answer == want) {
        check(memcmp(out, texts.bytes, texts.len) == 0, "the texts", about);
        check(untouched(out, texts.len, room), "bytes untouched behind the texts", about);
        check(untouched(sheet, XKBRULES_CARD_SHEET, sheet_len), "bytes untouched behind the lengths", about);
        for (size_t i = 0; i < XKBRULES_CARD_TEXTS; i++)
            check(xkbrules_sheet_length(sheet, i) == lengths[i], "a length", about);
    }
    check(card.len == 0 || memcmp(lent, card.bytes, card.len) == 0, "the card as it was", about);
    free(lent);
    free(out);
    free(sheet);
}

static const uint64_t no_room = (uint64_t)XKBRULES_NO_ROOM << 48, broken = (uint64_t)XKBRULES_BROKEN_CARD << 48;

static const char example[] = "\2\0pc\5\0us,fr\5\0,bepo\13\0ctrl:nocaps\5\0evdev\0\0\0\0\5\0|caps\0\0\0\0\5\0pc+us\13\0+fr(bepo):2\0\0\0\0";
static const char example_texts[] = "pcus,fr,bepoctrl:nocapsevdev|capspc+us+fr(bepo):2";
static const uint32_t example_lengths[] = {2, 5, 5, 11, 5, 0, 0, 5, 0, 0, 5, 11, 0, 0};

static void examples(void)
{
    uint8_t sheet[XKBRULES_SHEET];
    slice card = {example, sizeof example - 1}, texts = of(example_texts), none = {NULL, 0};
    slice in[INPUTS] = {of("pc"), of("us,fr"), of(",bepo"), of("ctrl:nocaps"), of("evdev|capspc+us+fr(bepo):2"), {sheet, sizeof sheet}};
    const size_t rooms[] = {0, 1, sizeof example - 2, sizeof example - 1, sizeof example, 1000};
    const size_t sheets[] = {0, 39, 40, 41, 100};

    put_lengths(sheet, example_lengths + 4);
    for (size_t r = 0; r < sizeof rooms / sizeof rooms[0]; r++) {
        int fits = rooms[r] >= card.len;
        writes(in, rooms[r], fits ? card.len : no_room, fits ? (const uint8_t *)example : NULL, "a card into a room");
    }
    for (size_t s = 0; s < sizeof sheets / sizeof sheets[0]; s++) {
        uint8_t *lent = block(sheets[s]);
        memset(lent, 0, sheets[s]);
        if (sheets[s] >= 40)
            put_lengths(lent, example_lengths + 4);
        in[SHEET].bytes = lent;
        in[SHEET].len = sheets[s];
        writes(in, 1000, sheets[s] < 40 ? no_room : card.len, sheets[s] < 40 ? NULL : (const uint8_t *)example, "a sheet of a length");
        free(lent);
    }
    in[SHEET].bytes = sheet;
    in[SHEET].len = sizeof sheet;
    in[TEXTS].len--;
    writes(in, 1000, no_room, NULL, "texts that end too early");
    in[TEXTS] = of("evdev|capspc+us+fr(bepo):2 and what is ignored");
    writes(in, 1000, card.len, (const uint8_t *)example, "bytes behind the ten texts");

    for (size_t room = 0; room < 60; room++)
        for (size_t s = 54; s < 60; s++) {
            int fits = room >= texts.len && s >= XKBRULES_CARD_SHEET;
            reads(card, room, s, fits ? 0 : no_room, texts, fits ? example_lengths : NULL, "a card read");
        }
    for (size_t end = 0; end < card.len; end++) {
        slice cut = {example, end};
        reads(cut, 100, 56, broken, none, NULL, "a card cut short");
        reads(cut, 0, 0, broken, none, NULL, "a card cut short, before 11");
    }
    reads((slice){example, sizeof example}, 100, 56, broken, none, NULL, "a byte behind a card");
}

/* What the profile is refused for, before anything else, and then what a card of it is. */
static void profiles(void)
{
    uint8_t sheet[XKBRULES_SHEET] = {0};
    slice none = {NULL, 0};
    slice in[INPUTS] = {of("a b"), of("us"), of(""), of(""), of(""), {sheet, 0}};
    static const char five[] = "\0\0\11\0a,b,c,d,e\0\0\0\0\0\0\0\0\0\0\0\0\0\0\0\0\0\0\0\0\0\0\0\0";
    static const char four[] = "\0\0\7\0a,b,c,d\0\0\0\0\0\0\0\0\0\0\0\0\0\0\0\0\0\0\0\0\0\0\0\0";
    static const char blank[] = "\3\0a b\0\0\0\0\0\0\0\0\0\0\0\0\0\0\0\0\0\0\0\0\0\0\0\0\0\0";
    const uint32_t lengths[XKBRULES_CARD_TEXTS] = {0, 7};

    writes(in, 0, ((uint64_t)XKBRULES_BAD_TEXT << 48) + 1, NULL, "a blank in the model, before 11");
    in[MODEL] = of("");
    in[LAYOUTS] = of("a,b,c,d,e");
    writes(in, 0, ((uint64_t)XKBRULES_TOO_MANY << 48) + 2, NULL, "five layouts, before 11");
    in[SHEET].len = sizeof sheet;
    writes(in, 1000, ((uint64_t)XKBRULES_TOO_MANY << 48) + 2, NULL, "five layouts");
    in[LAYOUTS] = of("a,b,c,d");
    writes(in, 1000, sizeof four - 1, (const uint8_t *)four, "four layouts");
    reads((slice){four, sizeof four - 1}, 7, 56, 0, of("a,b,c,d"), lengths, "a card with four layouts");
    reads((slice){five, sizeof five - 1}, 100, 56, broken, none, NULL, "a card with five layouts");
    reads((slice){blank, sizeof blank - 1}, 100, 56, broken, none, NULL, "a card with a blank in the model");
}

/* The longest texts, the longest card, and one byte more. */
static void long_texts(void)
{
    const size_t most = 10 * (size_t)65535, size = 28 + most;
    uint8_t *texts = patterned(most + 1), *card = block(size), sheet[XKBRULES_SHEET];
    uint32_t lengths[XKBRULES_CARD_TEXTS] = {0};
    slice in[INPUTS] = {of(""), of(""), of(""), of(""), {texts, most}, {sheet, sizeof sheet}}, none = {NULL, 0};
    uint64_t answer;

    for (size_t i = 4; i < XKBRULES_CARD_TEXTS; i++)
        lengths[i] = 65535;
    put_lengths(sheet, lengths + 4);
    answer = xkbrules_card_write(NULL, 0, NULL, 0, NULL, 0, NULL, 0, texts, most, sheet, sizeof sheet, card, size);
    check(answer == size, "the length of the longest texts' card", "long texts");
    check(size + 4 * 1024 == XKBRULES_MOST_CARD, "the longest card", "long texts");
    writes(in, size, size, card, "long texts");
    writes(in, size - 1, no_room, NULL, "long texts, and a byte too little room");
    reads((slice){card, size}, most, 56, 0, (slice){texts, most}, lengths, "long texts");
    reads((slice){card, size}, most - 1, 56, no_room, none, NULL, "long texts, and a byte too little room");
    reads((slice){card, size - 1}, most, 56, broken, none, NULL, "long texts, cut short");
    lengths[13] = 65536;
    put_lengths(sheet, lengths + 4);
    in[TEXTS].len = most + 1;
    writes(in, size + 1, no_room, NULL, "a text of 65,536 bytes");
    memset(sheet, 0, sizeof sheet);
    sheet[3] = sheet[7] = 0x80; /* two lengths of 2^31, whose sum is 2^32 */
    writes(in, size, no_room, NULL, "lengths whose sum has 33 bits");
    free(texts);
    free(card);
}

int main(void)
{
    examples();
    profiles();
    long_texts();
    printf("tests/c: cards: %lu checks, %lu failed\n", checks, failures);
    return failures == 0 ? 0 : 1;
}
