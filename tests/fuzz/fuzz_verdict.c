// What `check --config` prints: `rules N` of a configuration, and of any other text a line that names the place of its first fault, as
// docs/operations.md has it (Faults of a configuration). That is a line and a column; or a key, behind the rule and the target that have
// it, by a name or a number.
#include "fuzz_verdict.h"

#include <string.h>

// As the admin protocol says of the same line (docs/admin-protocol.md, Replies).
#define MOST_BYTES 453

// What is left of a line.
struct rest {
    const char *at, *end;
};

static int takes(struct rest *rest, const char *word) {
    size_t size = strlen(word);
    if ((size_t)(rest->end - rest->at) < size || memcmp(rest->at, word, size) != 0)
        return 0;
    rest->at += size;
    return 1;
}

static int is_over(const struct rest *rest) {
    return rest->at == rest->end;
}

// A number from 1.
static int takes_number(struct rest *rest) {
    const char *from = rest->at;
    while (!is_over(rest) && '0' <= *rest->at && *rest->at <= '9')
        rest->at++;
    return rest->at != from && *from != '0';
}

static int takes_quoted(struct rest *rest) {
    if (!takes(rest, "\""))
        return 0;
    while (!is_over(rest) && *rest->at != '"')
        rest->at += *rest->at == '\\' && rest->at + 1 < rest->end ? 2 : 1;
    return takes(rest, "\"");
}

static int takes_key(struct rest *rest, const char *keys) {
    while (*keys != 0) {
        size_t size = strcspn(keys, " ");
        const char *behind = rest->at + size;
        if (behind < rest->end && memcmp(rest->at, keys, size) == 0 && (*behind == ' ' || *behind == ':')) {
            rest->at = behind;
            return 1;
        }
        keys += size + 1;
    }
    return 0;
}

static int ends_with(struct rest rest, const char *word) {
    size_t size = strlen(word);
    return (size_t)(rest.end - rest.at) > size && memcmp(rest.end - size, word, size) == 0;
}

// (a rule more than may be)
static int is_unserved(struct rest rest) {
    return takes(&rest, "this version doesn't serve it") && is_over(&rest);
}

// A key that may not be there; or one with what is wrong with it, or with an item of its list.
static int names_key(struct rest rest, const char *keys) {
    if (takes(&rest, "unknown key "))
        return takes_quoted(&rest) && (is_over(&rest) || ends_with(rest, "\" is meant?"));
    if (!takes_key(&rest, keys))
        return 0;
    if (takes(&rest, " is missing"))
        return is_over(&rest);
    if (takes(&rest, ": "))
        return !is_over(&rest);
    return takes(&rest, " ") && takes_number(&rest) && takes(&rest, ": ") && !is_over(&rest);
}

static int names_place(struct rest rest, const char *keys) {
    struct rest text = rest, named = rest, numbered = rest;
    if (takes(&text, "line "))
        return takes_number(&text) && takes(&text, ", column ") && takes_number(&text) && takes(&text, ": no TOML: ") && !is_over(&text);
    if (takes(&named, "rule \""))
        return named.at--, takes_quoted(&named) && takes(&named, ": ") && names_key(named, keys);
    if (takes(&numbered, "rule ") && takes_number(&numbered) && takes(&numbered, ": "))
        return names_key(numbered, keys) || ends_with(numbered, " is not a table") || is_unserved(numbered);
    return names_key(rest, keys);
}

// How many bytes the first character has by UTF-8, or 0 where there is none that a line may have.
static size_t character(struct rest rest) {
    static const unsigned long least[] = {0, 0, 0x80, 0x800, 0x10000};
    unsigned char first = (unsigned char)*rest.at;
    size_t size = first < 0x80 ? 1 : first < 0xc0 ? 0 : first < 0xe0 ? 2 : first < 0xf0 ? 3 : first < 0xf8 ? 4 : 0;
    if (size == 0 || (size_t)(rest.end - rest.at) < size)
        return 0;
    unsigned long code = size == 1 ? first : first & (0x7fu >> size);
    for (size_t at = 1; at < size; at++) {
        unsigned char more = (unsigned char)rest.at[at];
        if ((more & 0xc0) != 0x80)
            return 0;
        code = code << 6 | (more & 0x3f);
    }
    int is_control = code < 0x20 || (0x7f <= code && code < 0xa0), is_half = 0xd800 <= code && code < 0xe000;
    return code < least[size] || code > 0x10ffff || is_control || is_half ? 0 : size;
}

static int is_text(struct rest rest) {
    while (!is_over(&rest)) {
        size_t size = character(rest);
        if (size == 0)
            return 0;
        rest.at += size;
    }
    return 1;
}

int is_verdict(const char *keys, int status, const char *said, size_t size) {
    if (size == 0 || said[size - 1] != '\n')
        return 0;
    struct rest rest = {.at = said, .end = said + size - 1};
    if (status == 0)
        return takes(&rest, "rules ") && (takes(&rest, "0") || takes_number(&rest)) && is_over(&rest);
    return size - 1 <= MOST_BYTES && is_text(rest) && takes(&rest, "bad config: ") && names_place(rest, keys);
}
