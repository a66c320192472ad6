/* A line as its words, by document 01's "Lines and words". Nothing is judged here. */
#include <string.h>

#include "tool.h"

const char *const left_items[] = {"model", "layout", "variant", "option", NULL};
const char *const components[] = {"keycodes", "types", "compat", "symbols", "geometry", NULL};

/* The bytes of a line end at a place: LF, or CR LF where the library takes it as one; else 0. */
static size_t feed_at(const uint8_t *bytes, size_t len, size_t at)
{
    if (at < len && bytes[at] == '\n')
        return 1;
    return ask_cr() && at + 1 < len && bytes[at] == '\r' && bytes[at + 1] == '\n' ? 2 : 0;
}

static size_t join_at(const uint8_t *bytes, size_t len, size_t at)
{
    size_t feed = bytes[at] == '\\' ? feed_at(bytes, len, at + 1) : 0;

    return feed == 0 ? 0 : 1 + feed;
}

static size_t blank_at(const uint8_t *bytes, size_t len, size_t at)
{
    return bytes[at] == ' ' || bytes[at] == '\t' ? 1 : join_at(bytes, len, at);
}

static size_t skip_blanks(const uint8_t *bytes, size_t len, size_t at)
{
    size_t n;

    while (at < len && (n = blank_at(bytes, len, at)) != 0)
        at += n;
    return at;
}

static int comment_at(const uint8_t *bytes, size_t len, size_t at)
{
    return at + 1 < len && bytes[at] == '/' && bytes[at + 1] == '/';
}

/* The word at a place where one would begin: empty at a comment or a line end. */
static span read_word(const uint8_t *bytes, size_t len, size_t at)
{
    span word = {at, at};

    if (comment_at(bytes, len, at))
        return word;
    while (word.to < len && feed_at(bytes, len, word.to) == 0 && blank_at(bytes, len, word.to) == 0)
        word.to++;
    return word;
}

int is_word(const uint8_t *bytes, span word, const char *s)
{
    return word.to - word.from == strlen(s) && memcmp(bytes + word.from, s, strlen(s)) == 0;
}

int begins_with(const uint8_t *bytes, span word, char c)
{
    return word.from < word.to && bytes[word.from] == (uint8_t)c;
}

static void add_word(const uint8_t *bytes, line *l, span word)
{
    if (l->count < FEW_WORDS)
        l->words[l->count] = word;
    if (is_word(bytes, word, "=") && l->equals++ == 0)
        l->first_equals = l->count;
    l->last = word;
    l->count++;
}

void read_line(const uint8_t *bytes, size_t len, size_t from, line *l)
{
    size_t at = skip_blanks(bytes, len, from);
    span word;

    memset(l, 0, sizeof *l);
    l->from = from;
    l->first_equals = (size_t)-1;
    l->heading = at < len && bytes[at] == '!';
    if (l->heading)
        at = skip_blanks(bytes, len, at + 1);
    for (word = read_word(bytes, len, at); word.from < word.to; word = read_word(bytes, len, at)) {
        add_word(bytes, l, word);
        at = skip_blanks(bytes, len, word.to);
    }
    if (l->equals == 0)
        l->first_equals = l->count;
    l->comment = at;
    while (at < len && feed_at(bytes, len, at) == 0)
        at++;
    l->end = at;
    l->to = at + feed_at(bytes, len, at);
}

span word_at(const uint8_t *bytes, size_t len, const line *l, size_t at)
{
    span before = {l->from, l->from}, word;
    size_t next = skip_blanks(bytes, len, l->from);

    if (l->heading)
        next = skip_blanks(bytes, len, next + 1);
    for (word = read_word(bytes, len, next); word.from < word.to && word.from <= at; word = read_word(bytes, len, next)) {
        before = word;
        next = skip_blanks(bytes, len, word.to);
    }
    return before;
}

size_t line_end(const uint8_t *bytes, size_t len, size_t from)
{
    const uint8_t *feed = from < len ? memchr(bytes + from, '\n', len - from) : NULL;

    return feed == NULL ? len : (size_t)(feed - bytes);
}

size_t line_start(const uint8_t *bytes, size_t len, size_t number)
{
    size_t from = 0, end;

    for (; number > 1 && (end = line_end(bytes, len, from)) < len; number--)
        from = end + 1;
    return from;
}

size_t line_number(const uint8_t *bytes, size_t at)
{
    size_t number = 1;

    for (size_t i = 0; i < at; i++)
        number += bytes[i] == '\n';
    return number;
}

static heading_kind kind_of(const uint8_t *bytes, const line *l)
{
    if (l->count > 0 && begins_with(bytes, l->words[0], '$'))
        return GROUP_LINE;
    return l->count > 0 && is_word(bytes, l->words[0], "include") ? INCLUDE_LINE : SET_HEADING;
}

heading_kind heading_above(const uint8_t *bytes, size_t len, size_t from, line *heading)
{
    heading_kind kind = NO_HEADING;
    line l;

    for (size_t at = 0; at < from; at = l.to) {
        read_line(bytes, len, at, &l);
        if (l.heading) {
            kind = kind_of(bytes, &l);
            *heading = l;
        }
    }
    return kind;
}
