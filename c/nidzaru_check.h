/*
 * The proved checker, search, players and pictures for C: what the programs fsr and picture answer to a document in memory.
 *
 *     uint64_t size;
 *     uint32_t status = nidzaru_check(document, document_size, buffer, buffer_size, &size);
 *
 * The answer's text goes to the front of the buffer, as far as that reaches, and its length to size. If that is larger than the buffer, the
 * rest of the text is lost: call again with a larger one. The status is that of the program: 0, or 1 if something isn't lawful; the text
 * is then what the program prints. It is 3 if the document is refused, 4 if memory ran out, and 7 if there is no verdict, as too much would
 * have to be tried; the text is then the program's line on standard error. docs/FORMATS.md has all of this.
 *
 * A call leaves some of its memory unfreed: a process that answers many documents grows. Calls of several threads don't disturb each
 * other. The document, the buffer and size may not overlap.
 *
 * Link libcheck_exports.a with the toolchain's liblibc_c.a. Each contract is that of crates/check_exports.
 */
#ifndef NIDZARU_CHECK_H
#define NIDZARU_CHECK_H

#include <stddef.h>
#include <stdint.h>

#ifdef __cplusplus
extern "C" {
#endif

/* what nidzaru_order is asked to show: the verdict, also the writes in their order (--order), or a small log (--small) */
enum { NIDZARU_VERDICT = 0, NIDZARU_ORDER = 1, NIDZARU_SMALL = 2 };

/* fsr check */
uint32_t nidzaru_check(const uint8_t *document, size_t document_size, uint8_t *buffer, size_t buffer_size, uint64_t *size);

/* fsr order */
uint32_t nidzaru_order(uint32_t show, const uint8_t *document, size_t document_size, uint8_t *buffer, size_t buffer_size, uint64_t *size);

/* fsr play */
uint32_t nidzaru_play(const uint8_t *document, size_t document_size, uint8_t *buffer, size_t buffer_size, uint64_t *size);

/* picture */
uint32_t nidzaru_picture(const uint8_t *document, size_t document_size, uint8_t *buffer, size_t buffer_size, uint64_t *size);

#ifdef __cplusplus
}
#endif

#endif
