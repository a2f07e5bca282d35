/* Rewrites names by rules, as `relayd` does: each rule in turn replaces every match of its pattern.
 *
 *     rewriting RULES NAMES    prints each name of the file NAMES, a line each, after the rules of the file RULES
 *
 * RULES has the form of a rewrite file, with patterns that both kinds of regular expressions read alike. With
 * -DPCRE2 the searches are those of PCRE2 with its JIT compiler, and else those of the C library's regexec.
 */
#define _GNU_SOURCE
#ifdef PCRE2
#define PCRE2_CODE_UNIT_WIDTH 8
#include <pcre2.h>
#else
#include <regex.h>
#endif
#include <stdio.h>
#include <stdlib.h>
#include <string.h>

enum { RULES = 64, GROUPS = 10, ROOM = 65536 };

struct span {
    long start, end;
};

struct rule {
#ifdef PCRE2
    pcre2_code *code;
    pcre2_match_data *data;
#else
    regex_t code;
#endif
    char *replacement;
};

static struct rule rules[RULES];
static int rule_count;

static void fail(const char *what) {
    fprintf(stderr, "rewriting: %s\n", what);
    exit(1);
}

static void compile(struct rule *rule, const char *pattern) {
#ifdef PCRE2
    int error;
    PCRE2_SIZE at;
    rule->code = pcre2_compile((PCRE2_SPTR)pattern, PCRE2_ZERO_TERMINATED, PCRE2_UTF, &error, &at, NULL);
    if (!rule->code) fail("a pattern is refused");
    pcre2_jit_compile(rule->code, PCRE2_JIT_COMPLETE);
    rule->data = pcre2_match_data_create(GROUPS, NULL);
    if (!rule->data) fail("no memory");
#else
    if (regcomp(&rule->code, pattern, REG_EXTENDED)) fail("a pattern is refused");
#endif
}

/* Whether the pattern is found from a place on, and the groups. */
static int find(struct rule *rule, const char *text, long length, long from, struct span *groups) {
#ifdef PCRE2
    int count = pcre2_match(rule->code, (PCRE2_SPTR)text, length, from, 0, rule->data, NULL);
    if (count < 0) return 0;
    PCRE2_SIZE *ends = pcre2_get_ovector_pointer(rule->data);
    for (int i = 0; i < GROUPS; i++) {
        int took_part = i < count && ends[2 * i] != PCRE2_UNSET;
        groups[i].start = took_part ? (long)ends[2 * i] : -1;
        groups[i].end = took_part ? (long)ends[2 * i + 1] : -1;
    }
#else
    regmatch_t found[GROUPS];
    (void)length;
    if (regexec(&rule->code, text + from, GROUPS, found, from ? REG_NOTBOL : 0)) return 0;
    for (int i = 0; i < GROUPS; i++) {
        groups[i].start = found[i].rm_so < 0 ? -1 : from + found[i].rm_so;
        groups[i].end = found[i].rm_so < 0 ? -1 : from + found[i].rm_eo;
    }
#endif
    return 1;
}

static long copy(char *out, long at, const char *text, long length) {
    if (at + length >= ROOM) fail("a name is too long");
    memcpy(out + at, text, length);
    return at + length;
}

/* What the replacement writes for a match, appended. */
static long write_replacement(const struct rule *rule, const char *text, const struct span *groups, char *out, long at) {
    for (const char *c = rule->replacement; *c; c++) {
        if (*c == '\\' && c[1] >= '1' && c[1] <= '9') {
            const struct span *group = &groups[*++c - '0'];
            if (group->start >= 0) at = copy(out, at, text + group->start, group->end - group->start);
        } else {
            if (*c == '\\') c++;
            at = copy(out, at, c, 1);
        }
    }
    return at;
}

/* The text with the replacement in the place of each match, or its length unchanged where there is none. */
static long apply(struct rule *rule, const char *text, long length, char *out) {
    struct span groups[GROUPS];
    long at = 0, last = 0, from = 0;
    int any = 0;
    while (from <= length && find(rule, text, length, from, groups)) {
        if (any && groups[0].end == last && groups[0].start == last) {
            from = last + 1; /* an empty match where the last one ended */
            if (groups[0].start < from) continue;
        }
        any = 1;
        at = copy(out, at, text + last, groups[0].start - last);
        at = write_replacement(rule, text, groups, out, at);
        last = from = groups[0].end;
    }
    if (!any) return -1;
    at = copy(out, at, text + last, length - last);
    out[at] = 0;
    return at;
}

static void read_rules(const char *path) {
    FILE *file = fopen(path, "r");
    char *line = NULL;
    size_t room = 0;
    if (!file) fail("the rules cannot be read");
    while (getline(&line, &room, file) > 0) {
        line[strcspn(line, "\n")] = 0;
        if (!*line || *line == '#' || *line == '[') continue;
        char *cut = strstr(line, " = ");
        if (!cut || rule_count == RULES) fail("the rules are not of the form of this benchmark");
        *cut = 0;
        compile(&rules[rule_count], line);
        rules[rule_count++].replacement = strdup(cut + 3);
    }
    free(line);
    fclose(file);
}

int main(int count, char **words) {
    static char buffers[2][ROOM];
    char *line = NULL;
    size_t room = 0;
    if (count != 3) fail("usage: rewriting RULES NAMES");
    read_rules(words[1]);
    FILE *names = fopen(words[2], "r");
    if (!names) fail("the names cannot be read");
    while (getline(&line, &room, names) > 0) {
        long length = (long)strcspn(line, "\n");
        line[length] = 0;
        char *text = line;
        int next = 0;
        for (int i = 0; i < rule_count; i++) {
            long made = apply(&rules[i], text, length, buffers[next]);
            if (made < 0) continue;
            text = buffers[next];
            length = made;
            next = 1 - next;
        }
        fwrite(text, 1, length, stdout);
        putchar('\n');
    }
    return 0;
}
