/* The keymap text of a resolved profile: the five strings of xkbrules.h as a text that xkbcomp and libxkbcommon
   compile (xkb_keymap_new_from_string, xkb_keymap_new_from_buffer). C99 or C++; nothing is to be linked beside
   libxkbrules.a.

   Strings hold what a profile holds, quotes and backslashes too, and those of a card hold any bytes. Put between
   quotes as they are, a layout such as us"};xkb_geometry{include"x would begin a section of its own. Here they are
   escaped.

       char keymap[XKBRULES_KEYMAP_ROOM];
       if (xkbrules_keymap(texts, sizeof texts, sheet, sizeof sheet, keymap, sizeof keymap) < sizeof keymap)
           compile(keymap);
*/
#ifndef XKBRULES_KEYMAP_H
#define XKBRULES_KEYMAP_H

#include "xkbrules.h"

/* Room for the keymap text. A byte of a string becomes four at most, and 512 are ample for what stands around the
   strings: the first is enough for strings of XKBRULES_ROOM bytes in all, the second for all that are accepted. */
enum {
    XKBRULES_KEYMAP_ROOM = 4 * XKBRULES_ROOM + 512,
    XKBRULES_MOST_KEYMAP = 4 * XKBRULES_MOST_ROOM + 512
};

#ifdef __cplusplus
extern "C" {
#endif

/* Where the text has come to; bytes behind `room` are counted and not stored. */
struct xkbrules_keymap_cursor {
    char *to;
    size_t room, at;
};

static inline void xkbrules_keymap_byte(struct xkbrules_keymap_cursor *c, unsigned byte)
{
    if (c->at < c->room)
        c->to[c->at] = (char)byte;
    c->at++;
}

static inline void xkbrules_keymap_words(struct xkbrules_keymap_cursor *c, const char *s)
{
    while (*s != '\0')
        xkbrules_keymap_byte(c, (unsigned char)*s++);
}

/* A string as both readers know it. A backslash is doubled; a quote, and every byte that isn't 0x20 to 0x7E, is an
   octal number (\" is not known to libxkbcommon). Such a number ends after three digits in one reader and after
   four in the other, so a digit from 0 to 7 behind one is written as a number too. */
static inline void xkbrules_keymap_string(struct xkbrules_keymap_cursor *c, const uint8_t *s, size_t len)
{
    int number = 0; /* the byte before was written as one */

    for (size_t i = 0; i < len; i++) {
        unsigned b = s[i];
        number = b == '"' || b < 0x20 || b > 0x7E || (number && b >= '0' && b <= '7');
        if (number) {
            xkbrules_keymap_byte(c, '\\');
            xkbrules_keymap_byte(c, '0' + (b >> 6));
            xkbrules_keymap_byte(c, '0' + (b >> 3 & 7));
            xkbrules_keymap_byte(c, '0' + (b & 7));
        } else {
            if (b == '\\')
                xkbrules_keymap_byte(c, '\\');
            xkbrules_keymap_byte(c, b);
        }
    }
}

/* An empty string is an empty section: both readers ask for every section but geometry. */
static inline void xkbrules_keymap_section(struct xkbrules_keymap_cursor *c, const char *name, const uint8_t *s, size_t len)
{
    xkbrules_keymap_words(c, "    xkb_");
    xkbrules_keymap_words(c, name);
    if (len == 0) {
        xkbrules_keymap_words(c, " { }; // empty\n");
    } else {
        xkbrules_keymap_words(c, " { include \"");
        xkbrules_keymap_string(c, s, len);
        xkbrules_keymap_words(c, "\" };\n");
    }
}

static inline size_t xkbrules_keymap_put(const uint8_t *texts, size_t texts_len, const uint8_t *sheet, size_t sheet_len,
                                         char *keymap, size_t room)
{
    static const char *const names[] = {"keycodes", "types", "compat", "symbols", "geometry"};
    struct xkbrules_keymap_cursor c;

    c.to = keymap;
    c.room = room;
    c.at = 0;
    xkbrules_keymap_words(&c, "xkb_keymap {\n");
    for (unsigned i = XKBRULES_KEYCODES; i <= XKBRULES_GEOMETRY; i++) {
        uint64_t component = xkbrules_component(texts, texts_len, sheet, sheet_len, i);
        size_t start = xkbrules_start(component), len = xkbrules_length(component);
        xkbrules_keymap_section(&c, names[i], len == 0 ? texts : texts + start, len);
    }
    xkbrules_keymap_words(&c, "};\n");
    xkbrules_keymap_byte(&c, '\0');
    return c.at - 1;
}

/* Writes the keymap text.

   texts   ten texts without gaps, as xkbrules_resolve left them; or those of a card, behind its first four
   sheet   the sheet of their lengths, as xkbrules_resolve left it; or the last 40 bytes of a card's
   keymap  room for the text and a closing zero

   Returns the length of the text, without the zero. It is written if it is less than `room`; else nothing is
   written, so that a caller may ask for the length with a room of 0. Texts and a sheet that xkbrules_component
   finds no component in give five empty sections. The text has bytes from 0x20 to 0x7E and LF alone. */
static inline size_t xkbrules_keymap(const uint8_t *texts, size_t texts_len, const uint8_t *sheet, size_t sheet_len,
                                     char *keymap, size_t room)
{
    size_t len = xkbrules_keymap_put(texts, texts_len, sheet, sheet_len, keymap, 0);

    if (len < room)
        xkbrules_keymap_put(texts, texts_len, sheet, sheet_len, keymap, room);
    return len;
}

#ifdef __cplusplus
}
#endif

#endif
