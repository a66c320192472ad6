/* Every call of the library that judges rules or a profile. */
#include "tool.h"

uint8_t strings[XKBRULES_MOST_ROOM], sheet[XKBRULES_SHEET];

static verdict verdict_of(uint64_t answer)
{
    verdict v;

    v.number = xkbrules_number(answer);
    v.file = 0;
    v.place = (size_t)xkbrules_place(answer);
    return v;
}

verdict ask_profile(const bundle *b, const profile *p)
{
    return verdict_of(xkbrules_resolve(b->files[0].bytes, b->files[0].len, p->in[MODEL], p->len[MODEL], p->in[LAYOUTS], p->len[LAYOUTS],
                                       p->in[VARIANTS], p->len[VARIANTS], p->in[OPTIONS], p->len[OPTIONS],
                                       strings, sizeof strings, sheet, sizeof sheet));
}

/* A file is checked by resolving the empty profile: no refusal of a line depends on the profile, all lines are
   looked at, and the strings are no longer than the file, so that 11 can't come. */
verdict ask(const bundle *b)
{
    static const profile empty;

    return ask_profile(b, &empty);
}

int ask_cr(void)
{
    static int known, answer;
    static uint8_t ends[] = {'\r', '\n'};

    if (!known) {
        rules_file file = {"", ends, sizeof ends};
        bundle b = {&file, 1};
        answer = ask(&b).number == XKBRULES_ACCEPTED;
        known = 1;
    }
    return answer;
}
