/* lockrun_error.h: what codes mean, in words, and where a text or a further set is wrong. */
#ifndef LOCKRUN_ERROR_H
#define LOCKRUN_ERROR_H
#include "lockrun_calls.h"
#include "lockrun_text.h"
#include <stdio.h>

/* What a lockrun_code, a lockrun_reply or LOCKRUN_WAITS means. */
static inline const char *lockrun_error(uint32_t code) {
    static const char *const codes[] = {
        "done", "nothing is there", "the handle stands for something else", "memory ran out",
        "a number is out of range, or a name isn't in the script", "the text is no script", "the session's commands are used up",
        "the ring or the buffer has no place now", "the node has made as many moves as its limit says",
        "moves or commands were forgotten, so there is no journal", "more commands or sets than there may be",
        "a further set has no new name, or no such parent"};
    static const char *const replies[] = {"granted", "true", "false", "unlocked", "not held", "changed", "dropped",
                                          "busy", "withdrawn", "withheld: what was given up before still stands"};
    static const char *const frames[] = {
        "another version of frames", "a frame of another service", "a frame of another node", "frames are missing",
        "a frame that was received before", "a frame that is too long", "a frame that was damaged, or made without the key",
        "a frame without a letter", "a letter that fits no node of this text"};
    if (code < sizeof codes / sizeof *codes) return codes[code];
    if (code >= LOCKRUN_GRANTED && code - LOCKRUN_GRANTED < sizeof replies / sizeof *replies) return replies[code - LOCKRUN_GRANTED];
    if (code == 32) return "the reply is still to come";
    if (code == 33) return "all sets for names are in use";
    if (code >= LOCKRUN_OTHER_VERSION && code - LOCKRUN_OTHER_VERSION < sizeof frames / sizeof *frames)
        return frames[code - LOCKRUN_OTHER_VERSION];
    return "no code";
}

/* What a fault of a script means, by its number: docs/use/FORMATS.md has all of them, with examples. */
static inline const char *lockrun_fault_words(uint32_t fault) {
    static const char *const words[] = {
        "no fault", "has a byte that is neither a tab nor printable ASCII", "has more than 200 bytes",
        "has none of the forms of a script's lines", "has a number that isn't 1 to 9 digits, or nodes that aren't there",
        "stands in the wrong place: the version first, then the nodes, each once", "declares a word that is no name",
        "declares a name that was declared before", "uses a set or a client that wasn't declared before",
        "is one node, set, client or command too many for this version", "has a word that is no mode of this version",
        "names a client of another node"};
    return fault < sizeof words / sizeof *words ? words[fault] : "has an unknown fault";
}

/* Why a text isn't opened, as `line 4: S10: ..` with the words, at most `room` bytes with the end: the code. The calls that open
 * nodes put the line `version 3` before a text without a version; here it isn't counted. */
static inline uint32_t lockrun_why(const char *text, size_t length, char *out, size_t room) {
    uint64_t line = 0;
    uint32_t fault = 0;
    size_t size = 0;
    uint8_t *whole = lockrun_with_version(text, length, &size);
    const uint32_t code = whole ? lockrun_fault_of(whole, size, &line, &fault) : (uint32_t)LOCKRUN_NO_MEMORY;
    free(whole);
    if (code != LOCKRUN_BAD_SCRIPT) {
        snprintf(out, room, "%s", lockrun_error(code));
        return code;
    }
    if (size != length && line > 1) line--;
    snprintf(out, room, "line %llu: S%u: %s", (unsigned long long)line, (unsigned)fault, lockrun_fault_words(fault));
    return code;
}

/* Whether the bytes are a name: 1 to 32 letters, digits, `_`, `-` and `.`, a letter first. */
static inline int lockrun_is_name(const uint8_t *name, size_t length) {
    static const char words[][8] = {"nodes", "set", "client", "journal", "version"};
    for (size_t k = 0; k < sizeof words / sizeof *words; k++)
        if (length == strlen(words[k]) && memcmp(name, words[k], length) == 0) return 0;
    for (size_t k = 0; k < length; k++) {
        const int letter = (name[k] | 32) >= 'a' && (name[k] | 32) <= 'z';
        if (!letter && (k == 0 || !name[k] || !strchr("0123456789_-.", name[k]))) return 0;
    }
    return length >= 1 && length <= 32;
}

/* Whether a word of the text's declarations, or a set before this one, has these bytes. */
static inline int lockrun_is_declared(const char *text, size_t length, const lockrun_new_set *sets, size_t count,
                                      const uint8_t *name, size_t size, int sets_alone) {
    for (size_t at = 0; at < length; at++) {
        while (at < length && text[at] && strchr(" \t\r", text[at])) at++;
        size_t word = length - at > 4 && !memcmp(text + at, "set", 3) ? 3 : length - at > 7 && !memcmp(text + at, "client", 6) ? 6 : 0;
        if (word && (word == 3 || !sets_alone) && (text[at + word] == ' ' || text[at + word] == '\t')) {
            for (at += word; at < length && (text[at] == ' ' || text[at] == '\t'); at++) {}
            const size_t end = at + size;
            if (end <= length && !memcmp(text + at, name, size) && (end == length || strchr(" \t\r\n", text[end]))) return 1;
        }
        while (at < length && text[at] != '\n') at++;
    }
    for (size_t k = 0; k < count; k++)
        if (sets[k].length == size && !memcmp(sets[k].name, name, size)) return 1;
    return 0;
}

/* Why further sets aren't opened with the text, as `set 3, pages: ..`, numbered from 0: LOCKRUN_BAD_SET; else as lockrun_why. It
 * takes time that grows with the square of their number. */
static inline uint32_t lockrun_why_sets(const char *text, size_t length, const lockrun_new_set *sets, size_t count, char *out,
                                        size_t room) {
    const uint32_t code = lockrun_why(text, length, out, room);
    for (size_t k = 0; code == LOCKRUN_OK && k < count; k++) {
        const lockrun_new_set *set = &sets[k];
        const char *words = 0;
        if (!lockrun_is_name(set->name, set->length)) words = "is no name";
        else if (lockrun_is_declared(text, length, sets, k, set->name, set->length, 0)) words = "has the name of another one";
        else if (set->parent_length && !lockrun_is_declared(text, length, sets, k, set->parent, set->parent_length, 1))
            words = "has a parent that is no set before it";
        if (!words) continue;
        snprintf(out, room, "set %zu, %.*s: %s", k, (int)(set->length < 200 ? set->length : 200), (const char *)set->name, words);
        return LOCKRUN_BAD_SET;
    }
    return code;
}
#endif
