/*
 * The reader of the XML block of a CPHD 1.1.0 file, for C.
 *
 * Link target/staticlib/libcapi.a, which `make target/staticlib/libcapi.a` proves and builds. It calls nothing else: no C library, no heap.
 *
 * Each function reads the `length` bytes at `text` and nothing else, in one call. It writes no memory but its own stack, keeps no
 * pointer, takes nothing over, and there is nothing to let go. The bytes may be any at all; they need no final zero, and must stay as
 * they are during the call. Where `length` is 0, `text` may be any pointer, NULL too (the comparison with expat tries that). Calls from several
 * threads at a time are fine.
 *
 * A document is: a declaration (`<?xml` up to the first `?>`), which may be left out; white space and comments; one root element; white
 * space and comments. Elements stand at most 16 deep, the root counted. An element holds text, the references `&lt;` `&gt;` `&amp;`
 * `&quot;` `&apos;`, comments and elements. A name starts with an ASCII letter or `_` and goes on with letters, digits, `_`, `-` and `.`, an
 * attribute's name also with `:`.
 * There are no CDATA sections, no processing instructions, no DOCTYPE, and no other references.
 */
#ifndef CPHD_H
#define CPHD_H

#include <stdbool.h>
#include <stddef.h>
#include <stdint.h>

#ifdef __cplusplus
extern "C" {
#endif

/* Whether the text is a document. */
bool cphd_xml_well_formed(const uint8_t *text, size_t length);

/* How many elements stand right inside the document's root, and 0 where the text is no document. */
size_t cphd_xml_root_children(const uint8_t *text, size_t length);

#ifdef __cplusplus
}
#endif

#endif
