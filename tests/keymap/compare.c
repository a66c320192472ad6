/* What libxkbcommon makes of a profile by itself, beside what it makes of a keymap text.

       compare ROOT RULES

   ROOT is the folder with rules/, symbols/ and the rest, and nothing else is looked at: neither a user's own files nor the environment's defaults. Each line of
   standard input is FILE|MODEL|LAYOUTS|VARIANTS|OPTIONS, with the keymap text in FILE. For each, one line is printed:

       same         both keymaps are the same text
       differs N    they differ, first in line N
       fails WHY    neither can be compiled, for the same reasons, of which WHY is the first
       fails apart  neither can be compiled, for different reasons
       ours         only the text in FILE can be compiled
       theirs       only the profile can be compiled

   Exit status: 0, or 2 where something can't be read. */
#include <stdarg.h>
#include <stdio.h>
#include <stdlib.h>
#include <string.h>

#include <xkbcommon/xkbcommon.h>

enum { FIELDS = 5, MOST_LINE = 8192, MOST_LOG = 65536 };

/* One compilation: the keymap as a text, or NULL, and the errors on the way. */
typedef struct {
    char *text;
    char log[MOST_LOG];
} result;

static result theirs, ours, *present;

/* Adds an error to the present result. Words that no rule knows are told of a profile alone, and are no reason to fail. */
static void note(struct xkb_context *context, enum xkb_log_level level, const char *format, va_list arguments)
{
    size_t used = strlen(present->log);

    (void)context;
    (void)level;
    if (strncmp(format, "Unrecognized RMLVO", strlen("Unrecognized RMLVO")) != 0)
        vsnprintf(present->log + used, MOST_LOG - used, format, arguments);
}

static struct xkb_context *context_of(const char *root)
{
    struct xkb_context *context = xkb_context_new(XKB_CONTEXT_NO_DEFAULT_INCLUDES | XKB_CONTEXT_NO_ENVIRONMENT_NAMES);

    if (context == NULL || !xkb_context_include_path_append(context, root)) {
        fprintf(stderr, "compare: %s: can't be used\n", root);
        exit(2);
    }
    xkb_context_set_log_level(context, XKB_LOG_LEVEL_ERROR);
    xkb_context_set_log_fn(context, note);
    return context;
}

static void begin(result *r)
{
    present = r;
    r->log[0] = '\0';
}

static void end(struct xkb_keymap *keymap)
{
    present->text = keymap == NULL ? NULL : xkb_keymap_get_as_string(keymap, XKB_KEYMAP_FORMAT_TEXT_V1);
    xkb_keymap_unref(keymap);
}

static void of_profile(struct xkb_context *context, const char *rules, char *const fields[FIELDS])
{
    struct xkb_rule_names names = {rules, fields[1], fields[2], fields[3], fields[4]};

    begin(&theirs);
    end(xkb_keymap_new_from_names(context, &names, XKB_KEYMAP_COMPILE_NO_FLAGS));
}

static void of_file(struct xkb_context *context, const char *name)
{
    FILE *file = fopen(name, "rb");

    if (file == NULL) {
        perror(name);
        exit(2);
    }
    begin(&ours);
    end(xkb_keymap_new_from_file(context, file, XKB_KEYMAP_FORMAT_TEXT_V1, XKB_KEYMAP_COMPILE_NO_FLAGS));
    fclose(file);
}

/* The number of the first line in which two texts differ. */
static unsigned long differs_at(const char *a, const char *b)
{
    unsigned long line = 1;

    for (size_t i = 0; a[i] == b[i]; i++)
        if (a[i] == '\n')
            line++;
    return line;
}

static void verdict(void)
{
    if (theirs.text == NULL && ours.text == NULL) {
        int alike = strcmp(theirs.log, ours.log) == 0;
        printf("fails %.*s\n", alike ? (int)strcspn(ours.log, "\n") : 5, alike ? ours.log : "apart");
    } else if (theirs.text == NULL || ours.text == NULL) {
        puts(ours.text == NULL ? "theirs" : "ours");
    } else if (strcmp(theirs.text, ours.text) == 0) {
        puts("same");
    } else {
        printf("differs %lu\n", differs_at(theirs.text, ours.text));
    }
}

/* Cuts a line at its bars. */
static int cut(char *line, char *fields[FIELDS])
{
    line[strcspn(line, "\n")] = '\0';
    for (int i = 0; i < FIELDS; i++) {
        char *bar = strchr(line, '|');
        fields[i] = line;
        if ((bar != NULL) != (i < FIELDS - 1))
            return 0;
        if (bar != NULL) {
            *bar = '\0';
            line = bar + 1;
        }
    }
    return 1;
}

int main(int argc, char **argv)
{
    static char line[MOST_LINE];
    struct xkb_context *context;

    if (argc != 3) {
        fprintf(stderr, "usage: compare ROOT RULES\n");
        return 2;
    }
    context = context_of(argv[1]);
    while (fgets(line, sizeof line, stdin) != NULL) {
        char *fields[FIELDS];
        if (!cut(line, fields)) {
            fprintf(stderr, "compare: not five fields\n");
            return 2;
        }
        of_profile(context, argv[2], fields);
        of_file(context, fields[0]);
        verdict();
        free(theirs.text);
        free(ours.text);
    }
    xkb_context_unref(context);
    return 0;
}
