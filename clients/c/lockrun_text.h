/* lockrun_text.h: what is looked up in the text of a script before it is opened. */
#ifndef LOCKRUN_TEXT_H
#define LOCKRUN_TEXT_H
#include <stdint.h>
#include <stdlib.h>
#include <string.h>

/* The number of a script's version, by its first line that isn't skipped. */
static inline int lockrun_version(const char *text, size_t length) {
    static const char word[] = "version";
    const size_t size = sizeof word - 1;
    size_t at = 0;
    for (int comment = 0; at < length && (comment || strchr("# \t\r\n", text[at])); at++)
        comment = text[at] != '\n' && (comment || text[at] == '#');
    if (length - at < size || memcmp(text + at, word, size) != 0) return 1;
    for (at += size; at < length && strchr(" \t", text[at]); at++) {}
    return at < length && text[at] == '3' ? 3 : 2;
}

/* The text with the line `version 3` before it, if it has no line of a version, and its size: to be freed. Null without memory. */
static inline uint8_t *lockrun_with_version(const char *text, size_t length, size_t *size) {
    static const char line[] = "version 3\n";
    const size_t more = lockrun_version(text, length) == 1 ? sizeof line - 1 : 0;
    uint8_t *whole = (uint8_t *)malloc(more + length + 1);
    if (!whole) return 0;
    memcpy(whole, line, more);
    memcpy(whole + more, text, length);
    *size = more + length;
    return whole;
}

/* How many lines of the text declare a set. */
static inline uint32_t lockrun_sets_of(const char *text, size_t length) {
    uint32_t sets = 0;
    for (size_t at = 0; at < length; at++) {
        while (at < length && strchr(" \t\r", text[at]) && text[at]) at++;
        if (length - at > 3 && memcmp(text + at, "set", 3) == 0 && (text[at + 3] == ' ' || text[at + 3] == '\t')) sets++;
        while (at < length && text[at] != '\n') at++;
    }
    return sets;
}
#endif
