/* A line of a list of cases: KIND id=ID name=value ... -> name=value ... # remark. What does not
 * read that way, or has a field too many or too few, ends the program with status 2. */
#ifndef LINE_H
#define LINE_H

#include <ctype.h>
#include <stdint.h>
#include <stdio.h>
#include <stdlib.h>
#include <string.h>

enum { MOST_FIELDS = 40 };

typedef struct {
    char *name, *value;
    int answered, used;
} field;

static field fields[MOST_FIELDS];
static size_t field_count, line_number;

static void malformed(const char *why, const char *what) {
    fprintf(stderr, "malformed line %zu: %s: %.60s\n", line_number, why, what);
    exit(2);
}

/* Takes a line apart, in place; answers its kind. */
static char *read_line(char *line) {
    char *remark = strstr(line, " # "), *rest = line;
    char *kind = strsep(&rest, " ");
    int answered = 0;
    field_count = 0;
    if (remark != NULL) *remark = '\0';
    for (char *token; (token = strsep(&rest, " ")) != NULL;) {
        if (strcmp(token, "->") == 0) {
            if (answered++) malformed("two arrows", kind);
            continue;
        }
        char *value = strchr(token, '=');
        if (value == NULL || field_count == MOST_FIELDS) malformed("no field", token);
        *value++ = '\0';
        fields[field_count++] = (field){token, value, answered, 0};
    }
    if (!answered) malformed("no answer", kind);
    return kind;
}

/* The value of a field, or NULL where there is none. */
static const char *find_value(const char *name, int answered) {
    field *found = NULL;
    for (field *f = fields; f < fields + field_count; f++) {
        if (f->answered != answered || strcmp(f->name, name) != 0) continue;
        if (found != NULL) malformed("field twice", name);
        found = f;
    }
    if (found == NULL) return NULL;
    found->used = 1;
    return found->value;
}

static const char *value_of(const char *name, int answered) {
    const char *value = find_value(name, answered);
    if (value == NULL) malformed("field missing", name);
    return value;
}

static const char *given(const char *name) {
    return value_of(name, 0);
}

/* One that may be left out. */
static const char *given_or_null(const char *name) {
    return find_value(name, 0);
}

static const char *answered(const char *name) {
    return value_of(name, 1);
}

/* An answer may say whose it is: by=oracle or by=model. */
static int is_origin(const field *f) {
    return f->answered && strcmp(f->name, "by") == 0 &&
           (strcmp(f->value, "oracle") == 0 || strcmp(f->value, "model") == 0);
}

static void every_field_was_used(void) {
    for (field *f = fields; f < fields + field_count; f++)
        if (!f->used && !is_origin(f)) malformed("unknown field", f->name);
}

/* Decimal digits up to one of the marks or the end; the cursor stands behind them. */
static uint64_t read_decimal(const char **at, const char *marks) {
    char *end;
    const char *start = *at;
    uint64_t n = strtoull(start, &end, 10);
    if (!isdigit((unsigned char)*start) || (*end != '\0' && strchr(marks, *end) == NULL))
        malformed("no decimal number", start);
    *at = end;
    return n;
}

/* Sixteen hexadecimal digits up to a comma or the end; the cursor stands behind them. */
static uint64_t read_bits(const char **at) {
    const char *start = *at;
    size_t digits = strspn(start, "0123456789abcdef");
    if (digits != 16 || (start[16] != ',' && start[16] != '\0'))
        malformed("no 16 hexadecimal digits", start);
    *at = start + 16;
    return strtoull(start, NULL, 16);
}

static uint64_t decimal(const char *text) {
    return read_decimal(&text, "");
}

static uint64_t bits(const char *text) {
    uint64_t n = read_bits(&text);
    if (*text != '\0') malformed("more than one value", text);
    return n;
}

/* The number of entries of a list; `-` is the empty one. */
static size_t list_length(const char *text) {
    size_t length = strcmp(text, "-") != 0;
    for (; *text != '\0'; text++) length += *text == ',';
    return length;
}

/* Steps over the comma before entry i. */
static void to_entry(const char **at, size_t i) {
    if (i == 0) return;
    if (**at != ',') malformed("no comma", *at);
    ++*at;
}

#endif
