/* What the parts of the command share.

   ask.c       every call of the library
   line.c      a line as its words, for showing it
   diagnose.c  the spot of a fault, and all faults of a file
   reason.c    what is said of a fault
   show.c      what is printed of it, for a terminal or as JSON
   xkbrules.c  the command line

   The library alone decides what is refused, with which number and at which line. What line.c sees of a line only
   chooses words for that, and what else the library is asked. */
#ifndef XKBRULES_TOOL_H
#define XKBRULES_TOOL_H

#include <stdio.h>

#include "xkbrules.h"

/* Exit statuses. */
enum { GOOD = 0, REFUSED = 1, FAILED = 2 };

/* The four texts in the library's order, which is that of its places from 1 on. */
enum { MODEL, LAYOUTS, VARIANTS, OPTIONS, TEXTS };

/* -- ask.c -- */

typedef struct {
    const uint8_t *in[TEXTS];
    size_t len[TEXTS];
} profile;

typedef struct {
    const char *name; /* as it is shown */
    uint8_t *bytes;
    size_t len;
} rules_file;

/* What the library is asked about: the file to resolve, and behind it those that it may name. */
typedef struct {
    rules_file *files;
    size_t count;
} bundle;

/* An answer: number 0, or a refusal with its line or text, and the file that the line is in, counted from 0. */
typedef struct {
    unsigned number;
    size_t file, place;
} verdict;

extern uint8_t strings[XKBRULES_MOST_ROOM], sheet[XKBRULES_SHEET];

/* Whether a file is good, for any profile. */
verdict ask(const bundle *b);

/* The same with a profile; accepted, its strings are in `strings` and `sheet`. */
verdict ask_profile(const bundle *b, const profile *p);

/* Whether CR LF is a line end to the library. */
int ask_cr(void);

/* -- line.c -- */

typedef struct {
    size_t from, to;
} span;

enum { FEW_WORDS = 12 };

/* A line with those that backslashes join to it, by offsets into its file. Words are counted behind the `!` of a
   heading. */
typedef struct {
    size_t from, end, to;  /* its first byte; its line end, or the file's; what is behind that */
    int heading;
    size_t comment;        /* where its comment begins, or `end` */
    size_t count;
    size_t equals, first_equals; /* how many words are `=`, and which is the first, or `count` */
    span words[FEW_WORDS]; /* the first ones */
    span last;             /* the last one */
} line;

void read_line(const uint8_t *bytes, size_t len, size_t from, line *l);

/* The word that a position is in, or else the one that ends before it with blanks between; empty where there is
   none. */
span word_at(const uint8_t *bytes, size_t len, const line *l, size_t at);

int is_word(const uint8_t *bytes, span word, const char *s);
int begins_with(const uint8_t *bytes, span word, char c);

/* Where a physical line begins, and its end without LF. */
size_t line_start(const uint8_t *bytes, size_t len, size_t number);
size_t line_end(const uint8_t *bytes, size_t len, size_t from);
size_t line_number(const uint8_t *bytes, size_t at);

/* Words of headings: known by index, NULL behind the last. */
extern const char *const left_items[], *const components[];

/* The heading that a line stands under. */
typedef enum { NO_HEADING, SET_HEADING, GROUP_LINE, INCLUDE_LINE } heading_kind;

heading_kind heading_above(const uint8_t *bytes, size_t len, size_t from, line *heading);

/* -- diagnose.c -- */

enum { MOST_SAID = 1024 };

typedef struct {
    unsigned number;
    const rules_file *file; /* of a line or of the whole; NULL for a text of the profile */
    size_t line, column;    /* physical, from 1; 0 where the whole file is meant */
    size_t at;              /* the spot in the file, or in the text */
    span mark;              /* the word that is meant, around or before the spot */
    int text;               /* MODEL to OPTIONS, or TEXTS */
    char said[MOST_SAID];
    const char *also;       /* what another line that is shown is, or NULL */
    const rules_file *also_file;
    size_t also_line;
} diagnosis;

typedef void (*shower)(const diagnosis *d, void *with);

/* Shows the faults of a bundle that the library refuses with `first`, at most `most` of them; 1 if there are more. */
int diagnose(const bundle *b, verdict first, size_t most, shower show, void *with);

/* The fault of a profile that is refused at a text. */
void diagnose_profile(const profile *p, verdict v, diagnosis *d);

/* -- reason.c -- */

/* What is known of a refused line when words are chosen for it. */
typedef struct {
    const uint8_t *bytes;
    size_t len;
    line line;
    size_t first; /* the number of its first physical line */
    heading_kind kind;
    line heading; /* where kind is not NO_HEADING */
} scene;

/* Sets what is said, the mark, and the spot where the byte before it is meant. */
void reason_line(const scene *s, diagnosis *d);
void reason_text(const profile *p, diagnosis *d);

/* -- show.c -- */

extern const char *const text_names[TEXTS], *const text_options[TEXTS];

void put_safe(FILE *to, const uint8_t *s, size_t n, int in_line);
void show_diagnosis(const diagnosis *d, const profile *p);
void json_string(FILE *to, const char *s, size_t n);
void json_diagnosis(FILE *to, const diagnosis *d);

#endif
