/* What a session program does when a seat's keyboard profile is chosen: read the rules file, put in its own
   defaults, resolve the profile, hand on the keymap.

       seat RULES MODEL LAYOUTS VARIANTS OPTIONS

   Prints the keymap text that xkbcomp or libxkbcommon compiles, or a refusal. Exit status: 0 accepted, 1 refused,
   2 the file can't be read. At a refusal there is no keymap: a seat then takes its house profile, which was tried
   before, and never the strings of the person before. */
#include <stdio.h>
#include <string.h>

#include "xkbrules-keymap.h"

static uint8_t rules[XKBRULES_MOST_FILE + 1]; /* one more than may be, so that a longer file is refused and not cut */
static size_t rules_len;

static int read_rules(const char *name)
{
    FILE *file = fopen(name, "rb");

    if (file == NULL)
        return 0;
    rules_len = fread(rules, 1, sizeof rules, file);
    if (ferror(file)) {
        fclose(file);
        return 0;
    }
    fclose(file);
    return 1;
}

int main(int argc, char **argv)
{
    static uint8_t texts[XKBRULES_ROOM];
    static char keymap[XKBRULES_KEYMAP_ROOM];
    uint8_t sheet[XKBRULES_SHEET];
    const char *model, *layouts;
    uint64_t answer;

    if (argc != 6) {
        fprintf(stderr, "usage: seat RULES MODEL LAYOUTS VARIANTS OPTIONS\n");
        return 2;
    }
    if (!read_rules(argv[1])) {
        perror(argv[1]);
        return 2;
    }

    /* Empty texts are accepted, and their strings name no layout: defaults are the caller's. */
    model = argv[2][0] == '\0' ? "pc105" : argv[2];
    layouts = argv[3][0] == '\0' ? "us" : argv[3];
    answer = xkbrules_resolve(rules, rules_len,
                              (const uint8_t *)model, strlen(model),
                              (const uint8_t *)layouts, strlen(layouts),
                              (const uint8_t *)argv[4], strlen(argv[4]),
                              (const uint8_t *)argv[5], strlen(argv[5]),
                              texts, sizeof texts, sheet, sizeof sheet);
    if (xkbrules_number(answer) != XKBRULES_ACCEPTED) {
        fprintf(stderr, "seat: refused %u at %llu: %s\n", xkbrules_number(answer), (unsigned long long)xkbrules_place(answer),
                xkbrules_message(xkbrules_number(answer)));
        return 1;
    }

    /* Always true: the room is for all that the texts can hold. */
    if (xkbrules_keymap(texts, sizeof texts, sheet, sizeof sheet, keymap, sizeof keymap) < sizeof keymap)
        fputs(keymap, stdout);
    return 0;
}
