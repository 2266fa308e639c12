/*
 * How fast the reader is: cphd_xml_well_formed beside expat and beside libxml2's SAX parser, on three texts,
 * and cphd_xml_root_children on roots with more and more children.
 *
 *     bench [FILE]      FILE: an XML block to take in place of the small text that is built in
 *
 * All runs are made in one process, the parsers' runs in turn, so that what else the machine does falls on each of them alike.
 * The times are medians. expat and libxml2 are given handlers that do nothing: they tell of what they read, and ours tells nothing,
 * so the comparison is of what it takes to know that a text is well formed.
 */
#define _POSIX_C_SOURCE 199309L
#include <expat.h>
#include <libxml/parser.h>
#include <libxml/parserInternals.h>
#include <stdarg.h>
#include <stdint.h>
#include <stdio.h>
#include <stdlib.h>
#include <string.h>
#include <time.h>

#include "cphd.h"

enum {
    LARGE = 4 << 20,     /* bytes of a large text */
    LARGE_RUNS = 41,     /* runs of each parser on a large text */
    SMALL_RUNS = 2001,   /* and on the small one, */
    SMALL_REPEATS = 20,  /* each of so many parses, since one takes less than the clock can tell well */
    WALK_RUNS = 31,
    WALKS = 3,
    PARSERS = 3
};

static void fail(const char *why)
{
    fprintf(stderr, "bench: %s\n", why);
    exit(1);
}

/* The processor time that this program has used: unlike the time of day, it does not go on while others have the processor. */
static double seconds(void)
{
    struct timespec now;
    if (clock_gettime(CLOCK_PROCESS_CPUTIME_ID, &now) != 0)
        fail("no clock");
    return (double)now.tv_sec + 1e-9 * (double)now.tv_nsec;
}

/* ---- texts ---- */

struct text {
    uint8_t *bytes;
    size_t length;
    size_t room;
};

/* Adds what printf would write. */
static void add(struct text *t, const char *format, ...)
{
    char piece[512];
    va_list args;
    va_start(args, format);
    int n = vsnprintf(piece, sizeof piece, format, args);
    va_end(args);
    if (n < 0 || (size_t)n >= sizeof piece)
        fail("a piece of text is too long");
    if (t->length + (size_t)n > t->room) {
        t->room = 2 * t->room + sizeof piece;
        t->bytes = realloc(t->bytes, t->room);
        if (t->bytes == NULL)
            fail("no memory");
    }
    memcpy(t->bytes + t->length, piece, (size_t)n);
    t->length += (size_t)n;
}

/* The parameters that the small text lists for each vector: name, and how many words it takes. */
static const struct {
    const char *name;
    int words;
} parameters[] = {
    {"TxTime", 1}, {"TxPos", 3}, {"TxVel", 3}, {"RcvTime", 1}, {"RcvPos", 3}, {"RcvVel", 3}, {"SRPPos", 3},
    {"AmpSF", 1}, {"aFDOP", 1}, {"aFRR1", 1}, {"aFRR2", 1}, {"FX1", 1}, {"FX2", 1}, {"FXN1", 1}, {"FXN2", 1},
    {"TOA1", 1}, {"TOA2", 1}, {"TOAE1", 1}, {"TOAE2", 1}, {"TDTropoSRP", 1}, {"TDIonoSRP", 1}, {"SC0", 1},
    {"SCSS", 1}, {"SIGNAL", 1},
};

/* A small text: the XML block of a product with one channel. */
static struct text product(void)
{
    struct text t = {0};
    add(&t, "<?xml version=\"1.0\" encoding=\"UTF-8\"?>\n");
    add(&t, "<CPHD xmlns=\"urn:example:cphd\">\n");
    add(&t, "<CollectionID><CollectorName>Synthetic</CollectorName><CoreName>TRIAL_01</CoreName></CollectionID>\n");
    add(&t, "<Data>\n<SignalArrayFormat>CI4</SignalArrayFormat>\n<NumBytesPVP>512</NumBytesPVP>\n");
    add(&t, "<NumCPHDChannels>1</NumCPHDChannels>\n<Channel>\n<Identifier>A</Identifier><NumVectors>2</NumVectors>");
    add(&t, "<NumSamples>3</NumSamples><SignalArrayByteOffset>0</SignalArrayByteOffset>");
    add(&t, "<PVPArrayByteOffset>0</PVPArrayByteOffset>\n</Channel>\n<NumSupportArrays>0</NumSupportArrays>\n</Data>\n<PVP>\n");
    int offset = 0;
    for (size_t i = 0; i < sizeof parameters / sizeof parameters[0]; i++) {
        const char *format = parameters[i].words == 3 ? "X=F8;Y=F8;Z=F8;" : "F8";
        add(&t, "<%s><Offset>%d</Offset><Size>%d</Size><Format>%s</Format></%s>\n", parameters[i].name, offset,
            parameters[i].words, format, parameters[i].name);
        offset += parameters[i].words;
    }
    add(&t, "</PVP>\n</CPHD>\n");
    return t;
}

/* A large text of nested elements with attributes and comments. */
static struct text markup(void)
{
    struct text t = {0};
    add(&t, "<?xml version=\"1.0\"?>\n<Root>\n");
    for (unsigned i = 0; t.length < LARGE; i++) {
        add(&t, "  <Channel index=\"%u\" name='c%u'>\n    <!-- the vectors of channel %u -->\n", i, i % 16, i);
        add(&t, "    <Vectors count=\"%u\"><First time=\"0.%06u\"/><Last>%u.5</Last></Vectors>\n", i * 7, i % 1000000, i);
        add(&t, "    <Samples>%u &lt; %u</Samples>\n  </Channel>\n", i, i + 1);
    }
    add(&t, "</Root>\n");
    return t;
}

/* A large text of one run of text in a root. */
static struct text run(void)
{
    struct text t = {0};
    add(&t, "<Root>");
    for (unsigned i = 0; t.length < LARGE; i++)
        add(&t, "%u of the words that a long remark is made of, and the end of a line.\n", i);
    add(&t, "</Root>\n");
    return t;
}

/* A root with n children. */
static struct text children(size_t n)
{
    struct text t = {0};
    add(&t, "<Root>");
    for (size_t i = 0; i < n; i++)
        add(&t, "<Child><Size>%d</Size></Child>\n", (int)(i % 10));
    add(&t, "</Root>");
    return t;
}

static struct text from_file(const char *path)
{
    struct text t = {0};
    FILE *f = fopen(path, "rb");
    if (f == NULL)
        fail("cannot open the file");
    t.room = 1 << 20;
    t.bytes = malloc(t.room);
    if (t.bytes == NULL)
        fail("no memory");
    t.length = fread(t.bytes, 1, t.room, f);
    if (t.length == t.room)
        fail("the file is too large for a small text");
    fclose(f);
    return t;
}

/* ---- the parsers ---- */

static int ours(const struct text *t)
{
    return cphd_xml_well_formed(t->bytes, t->length);
}

static void XMLCALL expat_start(void *user, const XML_Char *name, const XML_Char **attributes)
{
    (void)user, (void)name, (void)attributes;
}

static void XMLCALL expat_end(void *user, const XML_Char *name)
{
    (void)user, (void)name;
}

static void XMLCALL expat_text(void *user, const XML_Char *text, int length)
{
    (void)user, (void)text, (void)length;
}

static int expat(const struct text *t)
{
    XML_Parser p = XML_ParserCreate(NULL);
    if (p == NULL)
        fail("no memory for expat");
    XML_SetElementHandler(p, expat_start, expat_end);
    XML_SetCharacterDataHandler(p, expat_text);
    int ok = XML_Parse(p, (const char *)t->bytes, (int)t->length, 1) == XML_STATUS_OK;
    XML_ParserFree(p);
    return ok;
}

static void libxml_start(void *user, const xmlChar *name, const xmlChar *prefix, const xmlChar *uri, int n_spaces,
                         const xmlChar **spaces, int n_attributes, int n_defaulted, const xmlChar **attributes)
{
    (void)user, (void)name, (void)prefix, (void)uri, (void)n_spaces, (void)spaces;
    (void)n_attributes, (void)n_defaulted, (void)attributes;
}

static void libxml_end(void *user, const xmlChar *name, const xmlChar *prefix, const xmlChar *uri)
{
    (void)user, (void)name, (void)prefix, (void)uri;
}

static void libxml_text(void *user, const xmlChar *text, int length)
{
    (void)user, (void)text, (void)length;
}

static void libxml_complaint(void *user, const char *format, ...)
{
    (void)user, (void)format;
}

static int libxml(const struct text *t)
{
    xmlSAXHandler handler;
    memset(&handler, 0, sizeof handler);
    handler.initialized = XML_SAX2_MAGIC;
    handler.startElementNs = libxml_start;
    handler.endElementNs = libxml_end;
    handler.characters = libxml_text;
    handler.error = libxml_complaint;
    handler.warning = libxml_complaint;
    xmlParserCtxtPtr p = xmlCreateMemoryParserCtxt((const char *)t->bytes, (int)t->length);
    if (p == NULL)
        fail("no memory for libxml2");
    xmlSAXHandlerPtr own = p->sax;
    p->sax = &handler;
    xmlCtxtUseOptions(p, XML_PARSE_HUGE);
    xmlParseDocument(p);
    int ok = p->wellFormed;
    p->sax = own;
    xmlFreeParserCtxt(p);
    return ok;
}

static const struct {
    const char *name;
    int (*accepts)(const struct text *);
} parsers[PARSERS] = {{"ours", ours}, {"expat", expat}, {"libxml2", libxml}};

/* ---- times ---- */

static int by_size(const void *a, const void *b)
{
    double x = *(const double *)a, y = *(const double *)b;
    return (x > y) - (x < y);
}

static double median(double *times, size_t n)
{
    qsort(times, n, sizeof *times, by_size);
    return times[n / 2];
}

/* The seconds that one parse takes. */
static double parse_time(size_t parser, const struct text *t, int repeats)
{
    double start = seconds();
    int accepted = 0;
    for (int i = 0; i < repeats; i++)
        accepted += parsers[parser].accepts(t);
    double time = (seconds() - start) / repeats;
    if (accepted != repeats) {
        fprintf(stderr, "bench: %s refuses the text\n", parsers[parser].name);
        exit(1);
    }
    return time;
}

/* Times the three parsers on the text, prints a line for each, and lets the text go. */
static void compare(const char *name, struct text t, int runs, int repeats)
{
    double *times[PARSERS], middle[PARSERS];
    for (size_t p = 0; p < PARSERS; p++) {
        times[p] = malloc((size_t)runs * sizeof *times[p]);
        if (times[p] == NULL)
            fail("no memory");
        parse_time(p, &t, 1); /* warms up, and sees that the text is accepted */
    }
    for (int i = 0; i < runs; i++)
        for (size_t p = 0; p < PARSERS; p++)
            times[p][i] = parse_time(p, &t, repeats);
    printf("%s, %zu bytes, %d runs:\n", name, t.length, runs);
    for (size_t p = 0; p < PARSERS; p++) {
        middle[p] = median(times[p], (size_t)runs);
        printf("  %-8s %10.2f us %9.1f MB/s", parsers[p].name, 1e6 * middle[p], 1e-6 * (double)t.length / middle[p]);
        if (p > 0)
            printf("   ours is %.2f times as fast", middle[p] / middle[0]);
        printf("\n");
        free(times[p]);
    }
    free(t.bytes);
}

/* The seconds that the walk over the root's children takes. */
static double walk_time(const struct text *t, size_t children)
{
    double start = seconds();
    size_t count = cphd_xml_root_children(t->bytes, t->length);
    double time = seconds() - start;
    if (count != children)
        fail("the walk counts other than the children there are");
    return time;
}

/* Times the walk on roots with more and more children: the time for each child should stay the same. */
static void walk(void)
{
    static const size_t sizes[WALKS] = {10000, 100000, 1000000};
    struct text texts[WALKS];
    double times[WALKS][WALK_RUNS];
    for (size_t s = 0; s < WALKS; s++)
        texts[s] = children(sizes[s]);
    for (int i = 0; i < WALK_RUNS; i++)
        for (size_t s = 0; s < WALKS; s++)
            times[s][i] = walk_time(&texts[s], sizes[s]);
    printf("the walk over a root's children, with the reading of the whole text before it, %d runs:\n", WALK_RUNS);
    for (size_t s = 0; s < WALKS; s++) {
        double middle = median(times[s], WALK_RUNS);
        printf("  %8zu children %12.2f us %8.2f ns a child\n", sizes[s], 1e6 * middle, 1e9 * middle / (double)sizes[s]);
        free(texts[s].bytes);
    }
}

int main(int argc, char **argv)
{
    if (argc > 2)
        fail("usage: bench [FILE]");
    xmlInitParser();
    compare("a product's XML block", argc == 2 ? from_file(argv[1]) : product(), SMALL_RUNS, SMALL_REPEATS);
    compare("nested elements, attributes and comments", markup(), LARGE_RUNS, 1);
    compare("one run of text", run(), LARGE_RUNS, 1);
    walk();
    xmlCleanupParser();
    return 0;
}
