/*
 * What a C program may call of Galdrisco. galdrisco_check_tree is in target/staticlib/libtreefiles.a, galdrisco_count_job
 * in target/staticlib/libservice.a; the latter takes memory by malloc, for which c/liblibc_c.a of the Rattle kit is
 * linked behind it.
 */
#ifndef GALDRISCO_H
#define GALDRISCO_H

#include <stddef.h>
#include <stdint.h>

/*
 * In both functions a pointer to bytes points to as many as the length behind it says, which may be read, and is not
 * null, not even where the length is 0. Nothing is written to them or kept.
 */

/*
 * Checks the bytes of a tree file. Gives 0 where a load into ample memory would be granted, otherwise the number of
 * its refusal, as docs/refusals.md has them.
 */
uint32_t galdrisco_check_tree(const uint8_t *file, size_t length);

/* In the place of a refusal's number: there was not enough memory. */
#define GALDRISCO_NO_MEMORY 255

/*
 * A job count. `refusal` is 0 where it was granted; otherwise it is the number of the refusal or GALDRISCO_NO_MEMORY,
 * and all other fields are 0.
 */
struct galdrisco_job {
    size_t refusal;
    size_t lines;
    size_t offered;
    size_t withheld;
    size_t absent;
    size_t unreadable;
    size_t share;
};

/*
 * Counts what becomes of the lines of a sheet at the list of a tree file with the number `list`. The file is asked
 * for first, then whether an index takes its lists, then the sheet's length, then whether there is such a list.
 */
struct galdrisco_job galdrisco_count_job(const uint8_t *tree, size_t tree_length, const uint8_t *sheet,
                                         size_t sheet_length, size_t list);

#endif
