/*
 * Compares cphd_xml_well_formed with expat on many generated texts.
 *
 *     xml_expat [COUNT [SEED]]
 *
 * A generator makes documents of the part of XML that both readers share, and most of them are then damaged by one to three small
 * edits. Where both readers give the same answer, it is counted. Where they differ, the text must fall under one of the differences
 * that the dialect states, each decided by a function of its own that looks at the text alone. A difference that none of them explains
 * is printed, and the program ends with status 1. So it does where ours accepts what the dialect refuses by such a difference, where an
 * undamaged document gets the wrong answer or falls under a difference other than its depth, and where the walk counts other children of
 * the root than expat tells of.
 *
 * Each text stands right before a page that may not be read, so that a read past its end would end the program.
 */
#define _DEFAULT_SOURCE
#include <expat.h>
#include <stdbool.h>
#include <stdint.h>
#include <stdio.h>
#include <stdlib.h>
#include <string.h>
#include <sys/mman.h>
#include <unistd.h>

#include "cphd.h"

enum { COUNT = 200000, ROOM = 1 << 16, MOST_DEPTH = 16, DEEPEST = 20 };

static void fail(const char *why)
{
    fprintf(stderr, "xml_expat: %s\n", why);
    exit(1);
}

/* ---- random numbers ---- */

static uint64_t state = 20240229;

/* A number below n. */
static unsigned below(unsigned n)
{
    state ^= state << 13;
    state ^= state >> 7;
    state ^= state << 17;
    return (unsigned)((state >> 16) % n);
}

static char one_of(const char *bytes)
{
    return bytes[below((unsigned)strlen(bytes))];
}

/* ---- texts ---- */

struct text {
    char bytes[ROOM];
    size_t length;
};

static void put(struct text *t, char b)
{
    if (t->length == ROOM)
        fail("a text is too long");
    t->bytes[t->length++] = b;
}

static void put_all(struct text *t, const char *bytes)
{
    while (*bytes != '\0')
        put(t, *bytes++);
}

/* Whether the bytes stand at the place. */
static bool stands(const struct text *t, size_t at, const char *bytes)
{
    size_t n = strlen(bytes);
    return at <= t->length && n <= t->length - at && memcmp(t->bytes + at, bytes, n) == 0;
}

/* The end of the first such bytes that stand at the place or behind it, and the text's end where there are none. */
static size_t past(const struct text *t, size_t at, const char *bytes)
{
    for (; at < t->length; at++)
        if (stands(t, at, bytes))
            return at + strlen(bytes);
    return t->length;
}

static bool is_white(char b)
{
    return b == ' ' || b == '\t' || b == '\n' || b == '\r';
}

/* Prints the text with each byte that does not print as a number. */
static void show(const struct text *t)
{
    for (size_t i = 0; i < t->length; i++) {
        unsigned char b = (unsigned char)t->bytes[i];
        if (b >= 32 && b < 127)
            putchar(b);
        else
            printf("\\x%02x", b);
    }
    putchar('\n');
}

/* ---- the generator: documents that both readers accept, but for those that are too deep for ours ---- */

static void put_white(struct text *t, unsigned least)
{
    for (unsigned n = least + below(3); n > 0; n--)
        put(t, one_of("    \n\t\r"));
}

/* Now and then a character of two to four bytes: any, or one at an end of what XML has. */
static void put_long_character(struct text *t)
{
    static const char *const characters[] = {
        "\xc3\xa9",     "\xc2\x80",     "\xdf\xbf",     "\xe2\x82\xac",     "\xe0\xa0\x80",     "\xed\x9f\xbf",
        "\xee\x80\x80", "\xef\xbf\xbd", "\xef\xbb\xbf", "\xf0\x9f\x9b\xb0", "\xf0\x90\x80\x80", "\xf4\x8f\xbf\xbf",
    };
    if (below(16) == 0)
        put_all(t, characters[below(sizeof characters / sizeof characters[0])]);
}

static void put_name(struct text *t)
{
    put(t, one_of("abA_"));
    for (unsigned n = below(4); n > 0; n--)
        put(t, one_of("abA_.-1"));
}

static void put_value(struct text *t)
{
    char quote = one_of("\"'");
    put(t, quote);
    for (unsigned n = below(5); n > 0; n--) {
        char b = one_of("abA1 _.->/=!?;:'\"]");
        if (b != quote)
            put(t, b);
        put_long_character(t);
    }
    put(t, quote);
}

/* Attributes whose names differ in their last byte. */
static void put_attributes(struct text *t)
{
    unsigned n = below(2) * below(4);
    for (unsigned i = 0; i < n; i++) {
        put_white(t, 1);
        put_name(t);
        put(t, (char)('p' + i));
        put_white(t, 0);
        put(t, '=');
        put_white(t, 0);
        put_value(t);
    }
}

static void put_comment(struct text *t)
{
    put_all(t, "<!--");
    bool dash = true; /* a dash may not come next: not after a dash, nor last */
    for (unsigned n = below(8); n > 0; n--) {
        char b = one_of("-ab <>&!?]");
        if (b != '-' || (!dash && n > 1))
            put(t, b);
        put_long_character(t);
        dash = t->bytes[t->length - 1] == '-';
    }
    if (t->bytes[t->length - 1] == '-' && t->bytes[t->length - 2] != '-')
        put(t, 'a');
    put_all(t, "-->");
}

static void put_text(struct text *t)
{
    unsigned longest = below(16) == 0 ? 120 : 8;
    for (unsigned n = below(longest); n > 0; n--) {
        put(t, one_of("abA1 \n\t\r.->/=!?;:'\""));
        put_long_character(t);
    }
}

static void put_reference(struct text *t)
{
    static const char *const references[] = {"&lt;", "&gt;", "&amp;", "&quot;", "&apos;"};
    put_all(t, references[below(5)]);
}

static void put_piece(struct text *t)
{
    switch (below(4)) {
    case 0:
        put_reference(t);
        break;
    case 1:
        put_comment(t);
        break;
    default:
        put_text(t);
    }
}

/* An element with `chain` elements inside one another below it, and others up to `depth`. */
static void put_element(struct text *t, unsigned chain, unsigned depth)
{
    put(t, '<');
    size_t name = t->length;
    put_name(t);
    size_t name_end = t->length;
    put_attributes(t);
    put_white(t, 0);
    if (chain == 0 && below(3) == 0) {
        put_all(t, "/>");
        return;
    }
    put(t, '>');
    if (chain > 0)
        put_element(t, chain - 1, depth);
    for (unsigned n = below(4); n > 0; n--) {
        if (chain == 0 && depth > 0 && below(2) == 0)
            put_element(t, 0, depth - 1);
        else
            put_piece(t);
    }
    put_all(t, "</");
    for (size_t i = name; i < name_end; i++)
        put(t, t->bytes[i]);
    put_white(t, 0);
    put(t, '>');
}

static void put_misc(struct text *t)
{
    for (unsigned n = below(3); n > 0; n--) {
        if (below(2) == 0)
            put_comment(t);
        else
            put_white(t, 0);
    }
}

static const char declaration[] = "<?xml version=\"1.0\"?>";

static void put_document(struct text *t)
{
    t->length = 0;
    if (below(2) == 0)
        put_all(t, declaration);
    put_misc(t);
    put_element(t, below(8) == 0 ? 10 + below(DEEPEST - 10) : 0, 3);
    put_misc(t);
}

/* ---- damage ---- */

static void remove_at(struct text *t, size_t at)
{
    memmove(t->bytes + at, t->bytes + at + 1, t->length - at - 1);
    t->length--;
}

static void insert_at(struct text *t, size_t at, const char *bytes, size_t n)
{
    if (t->length + n > ROOM)
        fail("a text is too long");
    memmove(t->bytes + at + n, t->bytes + at, t->length - at);
    memcpy(t->bytes + at, bytes, n);
    t->length += n;
}

/* Bytes that matter to a reader; the string's own final zero is one of them. */
static char telling(void)
{
    static const char bytes[] = "<>/!-&;=\"'? \n\t\rabA_.1:]#\x7f\x01\x80\xa9\xc3\xf5\xff";
    return bytes[below(sizeof bytes)];
}

/* Pieces that matter to a reader, and that single bytes would hardly ever make up. */
static const char *telling_piece(void)
{
    static const char *const pieces[] = {
        "<![CDATA[a]]>", "<?a b?>", "<?xml version=\"1.0\"?>", "<!DOCTYPE a>", "&#65;", "&#x41;", "&#1;", "&a;", "&amp;", "]]>",
        "--", "<!--", "-->", "<a>", "</a>", "<a/>", " a=\"1\"", " a:b='1'", " :a=''", "a:", " a=\"1\" a=\"2\"", " a='&a;'", "<", "&",
        "\xc3\xa9", "\xc3\xa9", "\xe2\x82\xac", "\xc0\xaf", "\xed\xa0\x80", "\xef\xbf\xbe", "\xef\xbf\xbf", "\xf4\x90\x80\x80",
        "\xef\xbb\xbf", "\xef\xbb\xbf", "\xfe\xff", "\xff\xfe", " encoding=\"ISO-8859-1\"", " encoding=\"US-ASCII\"", " encoding='UTF-16'",
    };
    return pieces[below(sizeof pieces / sizeof pieces[0])];
}

/* A place of the text, now and then its start, and often that of a byte of markup. */
static size_t place(const struct text *t)
{
    if (below(32) == 0)
        return 0;
    size_t at = below((unsigned)t->length);
    for (int tries = 0; tries < 8 && below(2) == 0 && strchr("<>/!-&;=\"'?", t->bytes[at]) == NULL; tries++)
        at = below((unsigned)t->length);
    return at;
}

/* Writes each byte as a character of UTF-16, the lower byte first or last, behind a byte order mark or without. */
static void widen(struct text *t, bool lower_first, bool mark)
{
    for (size_t i = t->length; i > 0; i--)
        insert_at(t, lower_first ? i : i - 1, "", 1);
    if (mark)
        insert_at(t, 0, lower_first ? "\xff\xfe" : "\xfe\xff", 2);
}

static void damage(struct text *t)
{
    if (t->length < 2)
        return;
    if (below(128) == 0 && t->length < ROOM / 4) {
        widen(t, below(2) == 0, below(2) == 0);
        return;
    }
    size_t at = place(t);
    char b = telling();
    switch (below(5)) {
    case 0:
        remove_at(t, at);
        break;
    case 1:
        insert_at(t, at, &b, 1);
        break;
    case 2:
        t->bytes[at] = b;
        break;
    case 3:
        if (at + 1 < t->length) {
            b = t->bytes[at];
            t->bytes[at] = t->bytes[at + 1];
            t->bytes[at + 1] = b;
        }
        break;
    default: {
        const char *piece = telling_piece();
        insert_at(t, at, piece, strlen(piece));
    }
    }
}

/* ---- the two readers ---- */

struct verdict {
    bool accepted;
    size_t children; /* of the root, where it is accepted */
};

/* A copy of the text that ends where memory does. */
static const uint8_t *at_edge(const struct text *t)
{
    static uint8_t *edge = NULL;
    if (edge == NULL) {
        size_t page = (size_t)sysconf(_SC_PAGESIZE);
        uint8_t *room = mmap(NULL, ROOM + page, PROT_READ | PROT_WRITE, MAP_PRIVATE | MAP_ANONYMOUS, -1, 0);
        if (room == MAP_FAILED || mprotect(room + ROOM, page, PROT_NONE) != 0)
            fail("no memory");
        edge = room + ROOM;
    }
    if (t->length > 0)
        memcpy(edge - t->length, t->bytes, t->length);
    return edge - t->length;
}

static struct verdict ours(const struct text *t)
{
    const uint8_t *bytes = at_edge(t);
    struct verdict v = {cphd_xml_well_formed(bytes, t->length), cphd_xml_root_children(bytes, t->length)};
    return v;
}

struct count {
    int depth;
    size_t children;
};

static void XMLCALL start(void *user, const XML_Char *name, const XML_Char **attributes)
{
    (void)name, (void)attributes;
    struct count *c = user;
    c->children += c->depth == 1;
    c->depth++;
}

static void XMLCALL end(void *user, const XML_Char *name)
{
    (void)name;
    ((struct count *)user)->depth--;
}

static struct verdict expats(const struct text *t)
{
    struct count c = {0, 0};
    XML_Parser p = XML_ParserCreate(NULL);
    if (p == NULL)
        fail("no memory for expat");
    XML_SetUserData(p, &c);
    XML_SetElementHandler(p, start, end);
    struct verdict v = {XML_Parse(p, t->bytes, (int)t->length, 1) == XML_STATUS_OK, 0};
    v.children = c.children;
    XML_ParserFree(p);
    return v;
}

/* ---- the pieces of a text that one of the readers accepts ---- */

enum kind { TEXT, START_TAG, EMPTY_TAG, END_TAG, COMMENT, CDATA, INSTRUCTION, DOCTYPE };

struct piece {
    enum kind kind;
    size_t start, end;
};

/* The end of a tag: behind the first `>` that stands in no quotes. */
static size_t tag_end(const struct text *t, size_t at)
{
    char quote = '\0';
    for (; at < t->length; at++) {
        char b = t->bytes[at];
        if (quote != '\0')
            quote = b == quote ? '\0' : quote;
        else if (b == '"' || b == '\'')
            quote = b;
        else if (b == '>')
            return at + 1;
    }
    return t->length;
}

static size_t text_end(const struct text *t, size_t at)
{
    while (at < t->length && t->bytes[at] != '<')
        at++;
    return at;
}

/* The piece that starts at the place. */
static struct piece piece_at(const struct text *t, size_t at)
{
    if (t->bytes[at] != '<')
        return (struct piece){TEXT, at, text_end(t, at)};
    if (stands(t, at, "<!--"))
        return (struct piece){COMMENT, at, past(t, at + 4, "-->")};
    if (stands(t, at, "<![CDATA["))
        return (struct piece){CDATA, at, past(t, at, "]]>")};
    if (stands(t, at, "<?"))
        return (struct piece){INSTRUCTION, at, past(t, at, "?>")};
    if (stands(t, at, "<!"))
        return (struct piece){DOCTYPE, at, past(t, at, ">")};
    size_t end = tag_end(t, at);
    if (stands(t, at, "</"))
        return (struct piece){END_TAG, at, end};
    bool empty = end - at > 2 && t->bytes[end - 1] == '>' && t->bytes[end - 2] == '/';
    return (struct piece){empty ? EMPTY_TAG : START_TAG, at, end};
}

/* Goes on to the next piece of the text. The first one is asked for with a piece that ends at 0. */
static bool next_piece(const struct text *t, struct piece *p)
{
    if (p->end >= t->length)
        return false;
    *p = piece_at(t, p->end);
    return true;
}

static bool is_tag(const struct piece *p)
{
    return p->kind == START_TAG || p->kind == EMPTY_TAG || p->kind == END_TAG;
}

/* The end of a name: of what is no white space and no byte that ends a tag or a name. */
static size_t name_end(const struct text *t, size_t at, size_t end)
{
    while (at < end && !is_white(t->bytes[at]) && strchr("=/>", t->bytes[at]) == NULL)
        at++;
    return at;
}

struct attribute {
    size_t name, name_end, value, value_end, end;
};

/* Goes on to the next attribute of a tag. The first one is asked for with an attribute that ends where the tag's name does. */
static bool next_attribute(const struct text *t, const struct piece *p, struct attribute *a)
{
    size_t at = a->end;
    while (at < p->end && is_white(t->bytes[at]))
        at++;
    a->name = at;
    a->name_end = name_end(t, at, p->end);
    for (at = a->name_end; at < p->end && t->bytes[at] != '"' && t->bytes[at] != '\'';)
        at++;
    if (a->name == a->name_end || at == p->end)
        return false;
    char quote = t->bytes[at];
    a->value = at + 1;
    for (at++; at < p->end && t->bytes[at] != quote;)
        at++;
    a->value_end = at;
    a->end = at + 1;
    return at < p->end;
}

static struct attribute before_attributes(const struct text *t, const struct piece *p)
{
    size_t start = p->start + (p->kind == END_TAG ? 2 : 1);
    struct attribute a = {0, 0, 0, 0, name_end(t, start, p->end)};
    return a;
}

/* Whether one of the bytes stands between the two places. */
static bool holds(const struct text *t, size_t start, size_t end, char b)
{
    return start < end && memchr(t->bytes + start, b, end - start) != NULL;
}

/* Whether a piece of the kind holds the bytes. */
static bool some_piece_holds(const struct text *t, enum kind kind, const char *bytes)
{
    for (struct piece p = {TEXT, 0, 0}; next_piece(t, &p);)
        if (p.kind == kind)
            for (size_t i = p.start; i < p.end; i++)
                if (stands(t, i, bytes) && i + strlen(bytes) <= p.end)
                    return true;
    return false;
}

/* ---- what XML takes and the dialect refuses ---- */

/* UTF-16 is known by its byte order mark, or by the zero of its first character, as that one is ASCII. */
static bool starts_as_utf16(const struct text *t)
{
    return stands(t, 0, "\xfe\xff") || stands(t, 0, "\xff\xfe") || holds(t, 0, t->length < 2 ? t->length : 2, '\0');
}

static bool starts_with_mark(const struct text *t)
{
    return stands(t, 0, "\xef\xbb\xbf");
}

static bool too_deep(const struct text *t)
{
    int depth = 0, most = 0;
    for (struct piece p = {TEXT, 0, 0}; next_piece(t, &p);) {
        int inside = p.kind == START_TAG || p.kind == EMPTY_TAG ? depth + 1 : depth;
        most = inside > most ? inside : most;
        depth += (p.kind == START_TAG) - (p.kind == END_TAG);
    }
    return most > MOST_DEPTH;
}

static bool has_cdata(const struct text *t)
{
    return some_piece_holds(t, CDATA, "<");
}

static bool has_doctype(const struct text *t)
{
    return some_piece_holds(t, DOCTYPE, "<");
}

/* A processing instruction is any `<?` but that of a declaration, which is the text's first. */
static bool has_instruction(const struct text *t)
{
    for (struct piece p = {TEXT, 0, 0}; next_piece(t, &p);)
        if (p.kind == INSTRUCTION && !(p.start == 0 && stands(t, 0, "<?xml")))
            return true;
    return false;
}

/* A reference in text by a character's number. */
static bool has_number(const struct text *t)
{
    return some_piece_holds(t, TEXT, "&#");
}

/* A colon in the name of an element, or in front of an attribute's. */
static bool has_colon(const struct text *t)
{
    for (struct piece p = {TEXT, 0, 0}; next_piece(t, &p);) {
        if (!is_tag(&p))
            continue;
        struct attribute a = before_attributes(t, &p);
        if (holds(t, p.start, a.end, ':'))
            return true;
        while (next_attribute(t, &p, &a))
            if (t->bytes[a.name] == ':')
                return true;
    }
    return false;
}

/* Whether a byte from 80 on stands between the two places. */
static bool has_high_byte(const struct text *t, size_t start, size_t end)
{
    for (size_t i = start; i < end; i++)
        if ((unsigned char)t->bytes[i] >= 0x80)
            return true;
    return false;
}

/* A byte from 80 on in the name of an element or an attribute. */
static bool has_high_name(const struct text *t)
{
    for (struct piece p = {TEXT, 0, 0}; next_piece(t, &p);) {
        if (!is_tag(&p))
            continue;
        struct attribute a = before_attributes(t, &p);
        if (has_high_byte(t, p.start, a.end))
            return true;
        while (next_attribute(t, &p, &a))
            if (has_high_byte(t, a.name, a.name_end))
                return true;
    }
    return false;
}

static bool has_delete(const struct text *t)
{
    return some_piece_holds(t, TEXT, "\x7f");
}

/* ---- what XML refuses and the dialect takes ---- */

static bool same_name(const struct text *t, const struct attribute *a, const struct attribute *b)
{
    size_t n = a->name_end - a->name;
    return n == b->name_end - b->name && memcmp(t->bytes + a->name, t->bytes + b->name, n) == 0;
}

static bool repeats(const struct text *t, const struct piece *p)
{
    struct attribute a = before_attributes(t, p);
    while (next_attribute(t, p, &a))
        for (struct attribute b = a; next_attribute(t, p, &b);)
            if (same_name(t, &a, &b))
                return true;
    return false;
}

static bool has_repeated_attribute(const struct text *t)
{
    for (struct piece p = {TEXT, 0, 0}; next_piece(t, &p);)
        if ((p.kind == START_TAG || p.kind == EMPTY_TAG) && repeats(t, &p))
            return true;
    return false;
}

/* Whether one of the five references stands at the place. */
static bool is_reference(const struct text *t, size_t at)
{
    return stands(t, at, "&lt;") || stands(t, at, "&gt;") || stands(t, at, "&amp;") || stands(t, at, "&quot;") || stands(t, at, "&apos;");
}

/* A `&` in an attribute's value that begins none of the five references. */
static bool has_loose_ampersand(const struct text *t)
{
    for (struct piece p = {TEXT, 0, 0}; next_piece(t, &p);) {
        if (p.kind != START_TAG && p.kind != EMPTY_TAG)
            continue;
        for (struct attribute a = before_attributes(t, &p); next_attribute(t, &p, &a);)
            for (size_t i = a.value; i < a.value_end; i++)
                if (t->bytes[i] == '&' && !is_reference(t, i))
                    return true;
    }
    return false;
}

/* A control byte between the two places. */
static bool has_control(const struct text *t, size_t start, size_t end)
{
    for (size_t i = start; i < end; i++)
        if ((unsigned char)t->bytes[i] < 32 && !is_white(t->bytes[i]))
            return true;
    return false;
}

static bool has_control_in_comment(const struct text *t)
{
    for (struct piece p = {TEXT, 0, 0}; next_piece(t, &p);)
        if (p.kind == COMMENT && has_control(t, p.start, p.end))
            return true;
    return false;
}

static bool has_control_in_value(const struct text *t)
{
    for (struct piece p = {TEXT, 0, 0}; next_piece(t, &p);)
        if (p.kind == START_TAG || p.kind == EMPTY_TAG)
            for (struct attribute a = before_attributes(t, &p); next_attribute(t, &p, &a);)
                if (has_control(t, a.value, a.value_end))
                    return true;
    return false;
}

/* How many bytes a character of UTF-8 has by its first one, and 0 where none starts so. */
static size_t width(unsigned char first)
{
    return first < 0x80 ? 1 : first < 0xc0 ? 0 : first < 0xe0 ? 2 : first < 0xf0 ? 3 : first < 0xf8 ? 4 : 0;
}

/* Whether n bytes are the shortest for the number, and XML has a character of that number. Control bytes are left to others. */
static bool is_character(uint32_t number, size_t n)
{
    static const uint32_t least[] = {0, 0, 0x80, 0x800, 0x10000};
    bool surrogate = number >= 0xd800 && number <= 0xdfff;
    return number >= least[n] && number <= 0x10ffff && !surrogate && number != 0xfffe && number != 0xffff;
}

/* The end of the character of UTF-8 at the place, and the place itself where there is none that XML has. */
static size_t character_end(const struct text *t, size_t at, size_t end)
{
    const unsigned char *b = (const unsigned char *)t->bytes + at;
    size_t n = width(b[0]);
    if (n == 0 || n > end - at)
        return at;
    uint32_t number = n == 1 ? b[0] : b[0] & (0x7fu >> n);
    for (size_t i = 1; i < n; i++) {
        if ((b[i] & 0xc0) != 0x80)
            return at;
        number = number << 6 | (b[i] & 0x3f);
    }
    return is_character(number, n) ? at + n : at;
}

/* Whether the bytes between the two places are not all of such characters. */
static bool has_no_character(const struct text *t, size_t start, size_t end)
{
    for (size_t next; start < end; start = next) {
        next = character_end(t, start, end);
        if (next == start)
            return true;
    }
    return false;
}

/* Text, a comment or a value that is no UTF-8, or has a character from 80 on that XML has not. */
static bool has_other_than_utf8(const struct text *t)
{
    for (struct piece p = {TEXT, 0, 0}; next_piece(t, &p);) {
        if ((p.kind == TEXT || p.kind == COMMENT) && has_no_character(t, p.start, p.end))
            return true;
        if (p.kind == START_TAG || p.kind == EMPTY_TAG)
            for (struct attribute a = before_attributes(t, &p); next_attribute(t, &p, &a);)
                if (has_no_character(t, a.value, a.value_end))
                    return true;
    }
    return false;
}

static bool has_section_end(const struct text *t)
{
    return some_piece_holds(t, TEXT, "]]>");
}

/* A declaration other than the one that the generator writes, before a text that expat accepts. */
static bool has_other_declaration(const struct text *t)
{
    static struct text rest;
    if (!stands(t, 0, "<?xml") || stands(t, 0, declaration))
        return false;
    size_t start = past(t, 0, "?>");
    rest.length = 0;
    insert_at(&rest, 0, t->bytes + start, t->length - start);
    return expats(&rest).accepted;
}

/* ---- the two lists ---- */

struct difference {
    const char *name;
    bool (*found)(const struct text *);
    unsigned long count;
};

/* expat accepts and ours must refuse */
static struct difference refused[] = {
    {"UTF-16: FE FF or FF FE first, or a 00 as first or second byte", starts_as_utf16, 0},
    {"a byte order mark of UTF-8", starts_with_mark, 0},
    {"more than 16 elements inside one another", too_deep, 0},
    {"a CDATA section", has_cdata, 0},
    {"a DOCTYPE", has_doctype, 0},
    {"a processing instruction", has_instruction, 0},
    {"a reference by number in text", has_number, 0},
    {"a colon in an element's name, or first in an attribute's", has_colon, 0},
    {"a byte from 80 on in a name of an element or an attribute", has_high_name, 0},
    {"the byte 7F in text", has_delete, 0},
};

/* ours accepts and expat refuses */
static struct difference taken[] = {
    {"an attribute given twice in a tag", has_repeated_attribute, 0},
    {"a `&` in a value that begins no known reference", has_loose_ampersand, 0},
    {"a control byte in a comment", has_control_in_comment, 0},
    {"a control byte in a value", has_control_in_value, 0},
    {"bytes in text, a comment or a value that are not UTF-8 as XML has it", has_other_than_utf8, 0},
    {"`]]>` in text", has_section_end, 0},
    {"a declaration that XML refuses, or of an encoding that the text is not in", has_other_declaration, 0},
};

enum { REFUSED = sizeof refused / sizeof refused[0], TAKEN = sizeof taken / sizeof taken[0] };

/* The first difference of the list that the text falls under. */
static struct difference *first_found(struct difference *list, size_t n, const struct text *t)
{
    for (size_t i = 0; i < n; i++)
        if (list[i].found(t))
            return &list[i];
    return NULL;
}

/* ---- the comparison ---- */

static unsigned long both_accept, both_refuse, wrong;

static void complain(const char *why, const struct text *t)
{
    if (++wrong <= 20) {
        printf("WRONG: %s: ", why);
        show(t);
    }
}

/* Counts the difference that explains why one reader alone accepts the text. */
static void explain(const char *why, struct difference *list, size_t n, const struct text *t)
{
    struct difference *d = first_found(list, n, t);
    if (d == NULL)
        complain(why, t);
    else
        d->count++;
}

static void compare(const struct text *t)
{
    struct verdict o = ours(t), e = expats(t);
    if (o.accepted && first_found(refused, REFUSED, t) != NULL)
        complain("ours accepts what the dialect refuses", t);
    if (o.accepted && e.accepted && o.children != e.children)
        complain("the walk counts other children than expat tells of", t);
    if (!o.accepted && o.children != 0)
        complain("the walk counts children where there is no document", t);
    if (o.accepted && e.accepted)
        both_accept++;
    else if (o.accepted)
        explain("ours alone accepts", taken, TAKEN, t);
    else if (e.accepted)
        explain("expat alone accepts", refused, REFUSED, t);
    else
        both_refuse++;
}

/* An undamaged document: expat accepts it, and ours does if it is not too deep. It differs in nothing else. */
static void compare_whole(const struct text *t)
{
    if (!expats(t).accepted)
        complain("the generator's text is refused by expat", t);
    if (ours(t).accepted == too_deep(t))
        complain("ours gives the wrong answer to an undamaged document", t);
    struct difference *d = first_found(refused, REFUSED, t);
    if ((d != NULL && d->found != too_deep) || first_found(taken, TAKEN, t) != NULL)
        complain("an undamaged document falls under a difference", t);
}

/* ---- given texts: one for each difference and for what the readers have to agree on ---- */

static const struct {
    const char *text;
    bool ours, expat;
} given[] = {
    {"", false, false},
    {"a", false, false},
    {"<a/>", true, true},
    {"<a></a >", true, true},
    {"<a></b>", false, false},
    {"<a/><b/>", false, false},
    {" <!-- a --><a/> <!----> ", true, true},
    {"<a><!-- -- --></a>", false, false},
    {"<a><!-- ---></a>", false, false},
    {"<a><!--></a>", false, false},
    {"<a b='1'c='2'/>", false, false},
    {"<a b='<'/>", false, false},
    {"<a b='>\"'/>", true, true},
    {"<a>&lt;&gt;&amp;&quot;&apos;</a>", true, true},
    {"<a>&b;</a>", false, false},
    {"<a>&lt</a>", false, false},
    {"<a b:c='d'/>", true, true},
    {"<a><b>1</b><c/> <d e='f'/></a>", true, true},
    {" <?xml version=\"1.0\"?><a/>", false, false},
    {"<a>\x01</a>", false, false},
    {"<a><a><a><a><a><a><a><a><a><a><a><a><a><a><a><a/></a></a></a></a></a></a></a></a></a></a></a></a></a></a></a>", true, true},
    {"<a><a><a><a><a><a><a><a><a><a><a><a><a><a><a><a><a/></a></a></a></a></a></a></a></a></a></a></a></a></a></a></a></a>", false, true},
    {"<a><![CDATA[b]]></a>", false, true},
    {"<!DOCTYPE a><a/>", false, true},
    {"<a><?b c?></a>", false, true},
    {"<a>&#65;</a>", false, true},
    {"<a:b/>", false, true},
    {"<a :b='c'/>", false, true},
    {"<a>\x7f</a>", false, true},
    {"<a b='1' b='2'/>", true, false},
    {"<a b='&c;'/>", true, false},
    {"<a><!-- \x01 --></a>", true, false},
    {"<a b='\x01'/>", true, false},
    {"<a>]]></a>", true, false},
    {"<?xml?><a/>", true, false},
    {"\r<a\r\nb\r=\r'\r'\r>\r<!--\r--></a\r>\r", true, true},
    {"<a b='\xc3\xa9'>\xe2\x82\xac<!--\xf0\x9f\x9b\xb0--></a>", true, true},
    {"<a>\xc2\x80\xdf\xbf\xe0\xa0\x80\xed\x9f\xbf\xee\x80\x80\xef\xbf\xbd\xf0\x90\x80\x80\xf4\x8f\xbf\xbf</a>", true, true},
    {"<a>\xef\xbb\xbf</a>", true, true},
    {"<a/>\xc3\xa9", false, false},
    {"<a/>\xef\xbb\xbf", false, false},
    {"<a\xc2\xa0/>", false, false},
    {"<\xff/>", false, false},
    {"<a \xff=''/>", false, false},
    {"<\xc3\xa9/>", false, true},
    {"<a\xc3\xa9></a\xc3\xa9>", false, true},
    {"<a \xc3\xa9=''/>", false, true},
    {"<a b\xc3\xa9=''/>", false, true},
    {"\xef\xbb\xbf<a/>", false, true},
    {"\xef\xbb\xbf<?xml version=\"1.0\"?><a/>", false, true},
    {"\xef\xbb\xbf\xef\xbb\xbf<a/>", false, false},
    {"\xfe\xff<a/>", false, false},
    {"\xff\xfe<a/>", false, false},
    {"<a>\x80</a>", true, false},
    {"<a>\xc3</a>", true, false},
    {"<a>\xc3<b/>\xa9</a>", true, false},
    {"<a>\xff</a>", true, false},
    {"<a>\xf5\x80\x80\x80</a>", true, false},
    {"<a>\xf4\x90\x80\x80</a>", true, false},
    {"<a>\xc0\xaf</a>", true, false},
    {"<a>\xe0\x9f\xbf</a>", true, false},
    {"<a>\xf0\x8f\xbf\xbf</a>", true, false},
    {"<a>\xed\xa0\x80</a>", true, false},
    {"<a>\xef\xbf\xbe</a>", true, false},
    {"<a>\xef\xbf\xbf</a>", true, false},
    {"<a b='\xc3'/>", true, false},
    {"<a b='\xed\xa0\x80'/>", true, false},
    {"<a><!--\xc3--></a>", true, false},
    {"<a/><!--\xef\xbf\xbe-->", true, false},
    {"<?xml version=\"1.0\" encoding=\"ISO-8859-1\"?><a>\xe9</a>", true, true},
    {"<?xml version=\"1.0\" encoding=\"US-ASCII\"?><a>\xc3\xa9</a>", true, false},
    {"<?xml version=\"1.0\" encoding=\"UTF-16\"?><a/>", true, false},
    {"<?xml version=\"1.0\" encoding=\"unknown\"?><a/>", true, false},
};

enum { WIDE = 4, GIVEN = sizeof given / sizeof given[0] };

static void check_one(const struct text *t, bool by_ours, bool by_expat)
{
    if (ours(t).accepted != by_ours)
        complain("ours gives the wrong answer to a given text", t);
    if (expats(t).accepted != by_expat)
        complain("expat gives another answer than stated to a given text", t);
    compare(t);
}

/* A document in each form of UTF-16: the strings above end at a zero. */
static void check_wide(void)
{
    static struct text t;
    for (int form = 0; form < WIDE; form++) {
        t.length = 0;
        put_all(&t, "<a b='\xe9'/>");
        widen(&t, form % 2 == 0, form / 2 == 0);
        check_one(&t, false, true);
    }
}

static void check_given(void)
{
    static struct text t;
    for (size_t i = 0; i < GIVEN; i++) {
        t.length = 0;
        put_all(&t, given[i].text);
        check_one(&t, given[i].ours, given[i].expat);
    }
    check_wide();
    if (cphd_xml_well_formed(NULL, 0) || cphd_xml_root_children(NULL, 0) != 0)
        fail("no text at all is taken for a document");
}

/* ---- all of it ---- */

static void check_generated(unsigned long count)
{
    static struct text t;
    for (unsigned long i = 0; i < count; i++) {
        put_document(&t);
        unsigned edits = below(8) == 0 ? 0 : 1 + below(2) * below(3);
        if (edits == 0)
            compare_whole(&t);
        for (; edits > 0; edits--)
            damage(&t);
        compare(&t);
    }
}

static void print_list(const char *title, const struct difference *list, size_t n)
{
    printf("%s\n", title);
    for (size_t i = 0; i < n; i++)
        printf("%10lu  %s\n", list[i].count, list[i].name);
}

int main(int argc, char **argv)
{
    unsigned long count = argc > 1 ? strtoul(argv[1], NULL, 10) : COUNT;
    if (argc > 2)
        state = strtoull(argv[2], NULL, 10) | 1;
    setvbuf(stdout, NULL, _IOLBF, 0); /* what is wrong is printed even if a reader crashes later */
    check_given();
    check_generated(count);
    printf("texts: %d given, %lu generated\n", GIVEN + WIDE, count);
    printf("%10lu  accepted by both\n%10lu  refused by both\n", both_accept, both_refuse);
    print_list("accepted by expat and refused by ours, as the dialect states:", refused, REFUSED);
    print_list("accepted by ours and refused by expat, as the dialect states:", taken, TAKEN);
    printf("%10lu  wrong\n", wrong);
    return wrong == 0 ? 0 : 1;
}
