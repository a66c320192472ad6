/* xkbrules: resolves an XKB rules file for a keyboard profile (model, layouts, variants, options) into the five component strings keycodes, types,
   compat, symbols and geometry, or says why it can't; and writes and reads the card by which a resolved profile is sent to a desk. Link with
   libxkbrules.a; nothing else is needed. C99 or C++.

   Every slice is a pointer and its length in bytes. Texts are bytes and need no closing zero. A slice of length 0 may have any pointer, also NULL.
   A slice that is no `const` is written: it must not overlap any other slice of the call. The others are only read, and may overlap.

   The functions keep no state between calls, allocate nothing and lock nothing, so any number of threads may call them at once, each with its own
   slices to write to. They always return. They use about 56 KiB of stack.

   "Accepted" says that the file and the profile are well formed and that the strings are theirs. It does not say that a
   keyboard will work:
   - An empty layouts text is one empty layout, which no rule for a layout matches: the strings then name no layout. Empty
     strings are accepted too.
   - Defaults are the caller's. Nothing is put in for an empty text; libxkbcommon takes pc105 for an empty model and us for
     empty layouts.
   - Whether the files exist that a string names, and whether they compile, is known when the keymap is compiled.
   The strings may hold any byte from 0x21 to 0x7E that the profile holds, quotes too: don't print them between the quotes
   of a keymap text; xkbrules-keymap.h does that.

   An example:

       uint8_t texts[XKBRULES_ROOM], sheet[XKBRULES_SHEET];
       uint64_t answer = xkbrules_resolve(rules, rules_len, (const uint8_t *)"pc105", 5, (const uint8_t *)"us,fr", 5, NULL, 0, NULL, 0,
                                          texts, sizeof texts, sheet, sizeof sheet);
       if (xkbrules_number(answer) != XKBRULES_ACCEPTED) {
           printf("refused %u at %llu: %s\n", xkbrules_number(answer), (unsigned long long)xkbrules_place(answer),
                  xkbrules_message(xkbrules_number(answer)));
       } else {
           uint64_t c = xkbrules_component(texts, sizeof texts, sheet, sizeof sheet, XKBRULES_SYMBOLS);
           printf("%.*s\n", (int)xkbrules_length(c), (const char *)texts + xkbrules_start(c));
       }
*/
#ifndef XKBRULES_H
#define XKBRULES_H

#include <stddef.h>
#include <stdint.h>

/* The version of the library and of the command xkbrules. */
#define XKBRULES_VERSION "1.0.0"

#ifdef __cplusplus
extern "C" {
#endif

/* The number of an answer. The place is the text's number (1 model, 2 layouts, 3 variants, 4 options) for 1 and 2, the line of the rules file, counted
   from 1, for 4 to 10, and 0 for the others. The lowest of 1 to 3 comes first, then the first bad line with its lowest number, and 11 comes last. */
enum xkbrules_refusal {
    XKBRULES_ACCEPTED = 0,         /* not refused: the five strings are there */
    XKBRULES_BAD_TEXT = 1,         /* a text over 1,024 bytes, a field over 64, or a byte that isn't 0x21 to 0x7E */
    XKBRULES_TOO_MANY = 2,         /* over 4 layouts, more variants than layouts, or over 64 options */
    XKBRULES_LONG_FILE = 3,        /* rules of over 65,536 bytes */
    XKBRULES_BAD_BYTE = 4,         /* outside a comment, a byte that has no place in rules, or a backslash not at the line's end */
    XKBRULES_LONG_WORD = 5,        /* a word of over 256 bytes */
    XKBRULES_BAD_LINE = 6,         /* a line that is no heading, group or rule, or a rule that doesn't fit its heading */
    XKBRULES_BAD_HEADING = 7,      /* a heading with an item that is unknown, on the wrong side or repeated, or with bad or unlike indexes */
    XKBRULES_BAD_PERCENT = 8,      /* a percent sign that starts no known item */
    XKBRULES_INCLUDE = 9,          /* an include line: write the included rules out */
    XKBRULES_BAD_GROUP = 10,       /* a group defined twice, or a 65th */
    XKBRULES_NO_ROOM = 11,         /* the strings don't fit `texts` or are over 1,048,576 bytes, or `sheet` is under 40 bytes; for a card, see below */
    XKBRULES_BROKEN_CARD = 16      /* a card that is cut short or goes on behind its end, or whose profile 1 or 2 would be given for */
};

/* The components, by their numbers. */
enum {
    XKBRULES_KEYCODES = 0,
    XKBRULES_TYPES = 1,
    XKBRULES_COMPAT = 2,
    XKBRULES_SYMBOLS = 3,
    XKBRULES_GEOMETRY = 4
};

/* Sizes. The strings of the stock rules files take a few hundred bytes, so 65,536 for `texts` is ample for them; more than 1,048,576 is of no use, as
   longer strings are refused. */
enum {
    XKBRULES_SHEET = 40,
    XKBRULES_ROOM = 65536,
    XKBRULES_MOST_ROOM = 1048576
};

/* Limits. A caller that reads a rules file makes room for one byte more than XKBRULES_MOST_FILE, so that a longer file is
   refused and not cut. */
enum {
    XKBRULES_MOST_FILE = 65536,   /* bytes of a rules file */
    XKBRULES_MOST_WORD = 256,     /* bytes of a word in it */
    XKBRULES_MOST_GROUPS = 64,    /* groups that it defines */
    XKBRULES_MOST_TEXT = 1024,    /* bytes of each text of a profile */
    XKBRULES_MOST_FIELD = 64,     /* bytes of the model, a layout, a variant or an option */
    XKBRULES_MOST_LAYOUTS = 4,
    XKBRULES_MOST_OPTIONS = 64
};

/* Sizes for cards. No card is longer than the first: 28 bytes are its lengths, then come four texts of at most 1,024 bytes and ten of at most 65,535. The
   second is the sheet of a card's fourteen lengths, and the third is how many they are. */
enum {
    XKBRULES_MOST_CARD = 659474,
    XKBRULES_CARD_SHEET = 56,
    XKBRULES_CARD_TEXTS = 14
};

/* Resolves a rules file for a profile.

   rules     the bytes of the rules file, at most 65,536
   model     one model
   layouts   one to four layouts with commas between; an empty text is one empty layout
   variants  a variant for each layout, with commas between; missing ones are empty
   options   at most 64 options with commas between; empty ones are dropped
   texts     room for the strings: accepted, it starts with ten texts without gaps, base and additions of each component in the order of their numbers
   sheet     room for the ten texts' lengths: accepted, its first 40 bytes hold them as little-endian 32-bit numbers

   Returns the answer: 0 where the profile is accepted, else a refusal's number times 2^48 plus its place. All other bytes of `texts` and `sheet` stay as
   they were; after a refusal, all of them. */
uint64_t xkbrules_resolve(const uint8_t *rules, size_t rules_len,
                          const uint8_t *model, size_t model_len,
                          const uint8_t *layouts, size_t layouts_len,
                          const uint8_t *variants, size_t variants_len,
                          const uint8_t *options, size_t options_len,
                          uint8_t *texts, size_t texts_len,
                          uint8_t *sheet, size_t sheet_len);

/* Where one component stands in the texts of an accepted answer, base and additions together.

   texts      the texts as xkbrules_resolve left them, with the same length
   sheet      the sheet as xkbrules_resolve left it
   component  XKBRULES_KEYCODES to XKBRULES_GEOMETRY

   Returns the string's start in `texts` times 2^32 plus its length. 0, the empty string at the start, for any other component, for a sheet under 40 bytes,
   and for lengths that add up to more than texts_len or to 2^32 or more. */
uint64_t xkbrules_component(const uint8_t *texts, size_t texts_len,
                            const uint8_t *sheet, size_t sheet_len,
                            uint64_t component);

/* Writes a card: a resolved profile, for a desk to read. Its fourteen texts are the profile's four and the ten of the answer, in that order, each after its
   length in two bytes, the lower first. Nothing else stands in a card, and the same texts give the same bytes.

   model ..   the four texts of the profile, as for xkbrules_resolve
   texts      ten texts without gaps, as xkbrules_resolve left them; any bytes, and what stands behind the ten is ignored
   sheet      their lengths, as xkbrules_resolve left them
   card       room for the card: accepted, it starts with it

   Returns the card's length, below 2^48, so that xkbrules_number gives 0; else a refusal's number times 2^48 plus its place: XKBRULES_BAD_TEXT and
   XKBRULES_TOO_MANY as xkbrules_resolve, then XKBRULES_NO_ROOM for a sheet under 40 bytes, a text over 65,535 bytes, lengths that add up to more than
   texts_len, or a card that is too long for card_len. All other bytes of `card` stay as they were; after a refusal, all of them. */
uint64_t xkbrules_card_write(const uint8_t *model, size_t model_len,
                             const uint8_t *layouts, size_t layouts_len,
                             const uint8_t *variants, size_t variants_len,
                             const uint8_t *options, size_t options_len,
                             const uint8_t *texts, size_t texts_len,
                             const uint8_t *sheet, size_t sheet_len,
                             uint8_t *card, size_t card_len);

/* Reads a card. With what it gives, xkbrules_card_write gives the same card again.

   card   the bytes of a card, and nothing behind them
   texts  room for the fourteen texts: accepted, it starts with them, without gaps
   sheet  room for their lengths: accepted, its first 56 bytes hold them as little-endian 32-bit numbers

   The last ten texts begin behind the first four, and the last 40 of the 56 bytes are a sheet of their lengths: both can be lent to xkbrules_component.

   Returns 0 where the card is accepted; else a refusal's number times 2^48: XKBRULES_BROKEN_CARD, then XKBRULES_NO_ROOM for texts that don't fit texts_len
   or a sheet under 56 bytes. All other bytes of `texts` and `sheet` stay as they were; after a refusal, all of them. */
uint64_t xkbrules_card_read(const uint8_t *card, size_t card_len,
                            uint8_t *texts, size_t texts_len,
                            uint8_t *sheet, size_t sheet_len);

/* The number of an answer: one of enum xkbrules_refusal. */
static inline unsigned xkbrules_number(uint64_t answer)
{
    return (unsigned)(answer >> 48);
}

/* The place of an answer. */
static inline uint64_t xkbrules_place(uint64_t answer)
{
    return answer & UINT64_C(0xFFFFFFFFFFFF);
}

/* What a number says, in a line of ASCII without a full stop; of a number that this version doesn't know, that it doesn't.
   Never NULL. */
static inline const char *xkbrules_message(unsigned number)
{
    switch (number) {
    case XKBRULES_ACCEPTED: return "accepted";
    case XKBRULES_BAD_TEXT: return "text over 1,024 bytes, field over 64 bytes, or a byte that isn't 0x21 to 0x7E";
    case XKBRULES_TOO_MANY: return "over 4 layouts, more variants than layouts, or over 64 options";
    case XKBRULES_LONG_FILE: return "file too long: over 65,536 bytes";
    case XKBRULES_BAD_BYTE: return "outside a comment: a byte that has no place in rules, or a backslash not at the line's end";
    case XKBRULES_LONG_WORD: return "word too long: over 256 bytes";
    case XKBRULES_BAD_LINE: return "no heading, group line or rule, or a rule that doesn't fit its heading";
    case XKBRULES_BAD_HEADING: return "set heading with an item unknown, on the wrong side or repeated, or with bad or unlike indexes";
    case XKBRULES_BAD_PERCENT: return "malformed percent item";
    case XKBRULES_INCLUDE: return "include line: the included rules have to be written out";
    case XKBRULES_BAD_GROUP: return "group defined twice, or a 65th";
    case XKBRULES_NO_ROOM: return "strings longer than their buffer or than 1,048,576 bytes, or a sheet that is too short";
    case XKBRULES_BROKEN_CARD: return "broken card: cut short, or with bytes left over, or with a profile beyond the limits";
    default: return "not a known refusal";
    }
}

/* The version that a program was built with, for its output: that of this header, and of the library installed with it. */
static inline const char *xkbrules_version(void)
{
    return XKBRULES_VERSION;
}

/* The start of a component that xkbrules_component gave. */
static inline size_t xkbrules_start(uint64_t component)
{
    return (size_t)(component >> 32);
}

/* Its length. */
static inline size_t xkbrules_length(uint64_t component)
{
    return (size_t)(component & UINT64_C(0xFFFFFFFF));
}

/* One of the lengths in a sheet, that of the text of this number, counted from 0. */
static inline uint32_t xkbrules_sheet_length(const uint8_t *sheet, size_t number)
{
    const uint8_t *p = sheet + 4 * number;
    return (uint32_t)p[0] | (uint32_t)p[1] << 8 | (uint32_t)p[2] << 16 | (uint32_t)p[3] << 24;
}

#ifdef __cplusplus
}
#endif

#endif
