/* Whether standard input is one JSON text (RFC 8259), of bytes that a terminal shows, LF at the end of lines and
   nothing else: status 0, or 1 and the place where it is not. */
#include <stdio.h>
#include <stdlib.h>
#include <string.h>

static char *at, *start;

static void wrong(const char *what)
{
    fprintf(stderr, "json: byte %ld: %s\n", (long)(at - start), what);
    exit(1);
}

static void blanks(void)
{
    while (*at == ' ' || *at == '\n')
        at++;
}

static void expect(char c)
{
    if (*at != c)
        wrong("another byte is asked");
    at++;
}

static unsigned hex(void)
{
    unsigned n = 0;

    for (int i = 0; i < 4; i++, at++) {
        const char *digits = "0123456789abcdef0123456789ABCDEF", *digit = *at == '\0' ? NULL : strchr(digits, *at);
        if (digit == NULL)
            wrong("no digit");
        n = 16 * n + (unsigned)(digit - digits) % 16;
    }
    return n;
}

static void string(void)
{
    expect('"');
    while (*at != '"') {
        unsigned n;
        if (*at < 0x20 || *at > 0x7E)
            wrong("a byte that may not stand in a string");
        if (*at++ != '\\')
            continue;
        if (*at == '\0' || strchr("\"\\/bfnrtu", *at) == NULL)
            wrong("no escape");
        if (*at++ != 'u')
            continue;
        n = hex();
        if (n >= 0xDC00 && n < 0xE000)
            wrong("a second half alone");
        if (n >= 0xD800 && n < 0xDC00) {
            expect('\\');
            expect('u');
            n = hex();
            if (n < 0xDC00 || n >= 0xE000)
                wrong("a first half alone");
        }
    }
    at++;
}

static void value(void);

static void list(char open, char close, int pairs)
{
    expect(open);
    blanks();
    if (*at != close)
        for (;;) {
            blanks();
            if (pairs) {
                string();
                expect(':');
            }
            value();
            blanks();
            if (*at != ',')
                break;
            at++;
        }
    expect(close);
}

static void value(void)
{
    blanks();
    if (*at == '{')
        list('{', '}', 1);
    else if (*at == '[')
        list('[', ']', 0);
    else if (*at == '"')
        string();
    else if (strncmp(at, "null", 4) == 0 || strncmp(at, "true", 4) == 0)
        at += 4;
    else if (strncmp(at, "false", 5) == 0)
        at += 5;
    else if (*at == '0')
        at++;
    else if (*at >= '1' && *at <= '9')
        while (*at >= '0' && *at <= '9')
            at++;
    else
        wrong("no value");
}

int main(void)
{
    size_t room = 1 << 26, n;

    start = at = calloc(room + 1, 1);
    if (start == NULL)
        return 2;
    n = fread(start, 1, room, stdin);
    value();
    expect('\n');
    if ((size_t)(at - start) != n)
        wrong("more follows");
    free(start);
    return 0;
}
