/* Reads a log by the library, and tells of it what `xth logdump` does, but for the items: of each checkpoint its number, its items, and the size that it
 * says; then the bytes behind the last, or the field that breaks its rule. What a recovery makes of the same log must agree, and it must make the same
 * of the log whole and in pieces. */
#define _GNU_SOURCE
#include <refskold.h>
#include <stdio.h>
#include <stdlib.h>
#include <string.h>

enum { LOG_BYTES = 1 << 20 };

static uint8_t text[LOG_BYTES];

static void want(int is_well, const char *what)
{
    if (is_well) return;
    fprintf(stderr, "logs: %s\n", what);
    exit(1);
}

/* Whether a handle is all zeros, as one that holds nothing. */
static int is_zero(const refskold_recovery *recovery)
{
    static const uint8_t zeros[sizeof *recovery];
    return memcmp(recovery, zeros, sizeof zeros) == 0;
}

/* What calls that no caller should make get. */
static void bad_calls(refskold_recovery *recovery, refskold_log_told *told, int wanted)
{
    uint8_t content[REFSKOLD_BLOCK] = { 0 };
    uint64_t block = 77;
    want(refskold_recovery_block(recovery, UINT64_MAX, &block) == wanted && block == 77, "a place behind the last");
    want(refskold_recovery_lay_sized(recovery, 7, content, REFSKOLD_BLOCK - 1) == wanted, "a content too short");
    want(refskold_recovery_lay_sized(recovery, 7, content, 0) == wanted, "no content");
    want(refskold_recovery_block(recovery, 0, NULL) == -EINVAL && refskold_recovery_lay(recovery, 7, NULL) == -EINVAL, "NULL");
    want(refskold_recovery_open(recovery, NULL, 1, told) == -EINVAL && refskold_recovery_open(NULL, text, 1, told) == -EINVAL, "NULL with a length");
    want(refskold_recovery_feed(recovery, NULL, 1) == -EINVAL && refskold_recovery_feed(NULL, text, 1) == -EINVAL, "NULL with a length");
    want(refskold_recovery_end(recovery, NULL) == -EINVAL && refskold_recovery_end(NULL, told) == -EINVAL, "NULL");
    want(refskold_recovery_close(NULL) == -EINVAL && refskold_read_checkpoint(NULL, 1, NULL) == -EINVAL, "NULL");
}

/* The bytes of a block by what texts say. */
static size_t block_bytes(uint64_t size)
{
    return size == 0 ? REFSKOLD_BLOCK : (size_t)size;
}

/* What the texts of the log say of the size of a block, by the first; and where the first begins that says something else. */
struct sizes {
    uint64_t first, mixed_at;
    int is_mixed;
};

/* Gathers the log, and lays it over blocks of zeros. */
static void recover(size_t length, uint64_t texts, uint64_t rest, uint64_t broken_at, int is_broken, struct sizes sizes)
{
    refskold_recovery recovery = REFSKOLD_NONE;
    refskold_log_told told;
    uint8_t content[REFSKOLD_BLOCK];
    uint64_t block, before = 0;
    memset(&told, 0x5a, sizeof told);
    bad_calls(&recovery, &told, -ENODEV);
    int status = refskold_recovery_open(&recovery, text, length, &told);
    want(status == 0 || status == -EILSEQ, "memory");
    want((told.end == REFSKOLD_WHOLE) == (status == 0), "an end that is not told");
    want((told.end == REFSKOLD_MIXED) == sizes.is_mixed, "texts of two sizes");
    if (told.end == REFSKOLD_MIXED) want(told.at == sizes.mixed_at, "another text is of another size");
    if (told.end == REFSKOLD_BROKEN) want(is_broken && told.at == broken_at, "another place is broken");
    if (status != 0) {
        want(told.texts == 0 && told.rest == 0 && told.blocks == 0 && told.size == 0, "counts of a broken log");
        want(is_zero(&recovery), "a handle of a broken log");
        return;
    }
    want(!is_broken && told.texts == texts && told.rest == rest && told.size == sizes.first, "other counts");
    want(refskold_recovery_open(&recovery, text, length, &told) == -EBUSY, "an open of what is open");
    for (uint64_t k = 0; k < told.blocks; k++, before = block) {
        memset(content, 0, sizeof content);
        want(refskold_recovery_block(&recovery, k, &block) == 0 && (k == 0 || block > before), "blocks that do not ascend");
        want(refskold_recovery_lay_sized(&recovery, block, content, block_bytes(told.size)) == 0, "lay");
    }
    bad_calls(&recovery, &told, -EINVAL);
    want(refskold_recovery_feed(&recovery, text, 1) == -EBUSY && refskold_recovery_end(&recovery, &told) == -EBUSY, "pieces behind what texts say");
    want(refskold_recovery_close(&recovery) == 0 && is_zero(&recovery), "close");
}

/* Feeds the log in pieces of so many bytes. */
static void feed(refskold_recovery *recovery, size_t length, size_t piece)
{
    refskold_log_told told;
    for (size_t at = 0; at < length; at += piece) {
        want(refskold_recovery_feed(recovery, text + at, length - at < piece ? length - at : piece) == 0, "a piece");
        bad_calls(recovery, &told, -ENODEV);
    }
    want(length == 0 || refskold_recovery_open(recovery, text, length, &told) == -EBUSY, "an open of what came in pieces");
}

/* That two recoveries say the same of each block. */
static void compare(refskold_recovery *one, refskold_recovery *other, uint64_t blocks, size_t size)
{
    static uint8_t content[2][REFSKOLD_BLOCK];
    refskold_recovery *both[2] = { one, other };
    uint64_t block, same;
    for (uint64_t k = 0; k < blocks; k++) {
        memset(content, 0x5a, sizeof content);
        want(refskold_recovery_block(one, k, &block) == 0 && refskold_recovery_block(other, k, &same) == 0 && block == same, "another block");
        for (int which = 0; which < 2; which++) want(refskold_recovery_lay_sized(both[which], block, content[which], size) == 0, "lay");
        want(memcmp(content[0], content[1], REFSKOLD_BLOCK) == 0, "another content");
    }
    want(refskold_recovery_block(other, blocks, &same) == -EINVAL, "more blocks");
}

/* That the log in pieces of so many bytes is what it is whole. */
static void in_pieces(size_t length, size_t piece)
{
    refskold_recovery whole = REFSKOLD_NONE, pieces = REFSKOLD_NONE;
    refskold_log_told told = { 0 }, of_pieces = { 0 };
    int status = refskold_recovery_open(&whole, text, length, &told);
    feed(&pieces, length, piece);
    want(refskold_recovery_end(&pieces, &of_pieces) == status && memcmp(&told, &of_pieces, sizeof told) == 0, "another end of the same log");
    if (status == 0) {
        compare(&whole, &pieces, told.blocks, block_bytes(told.size));
    } else {
        want(refskold_recovery_feed(&pieces, text, 0) == 0 && refskold_recovery_end(&pieces, &of_pieces) == status, "bytes that are not held");
        want(memcmp(&told, &of_pieces, sizeof told) == 0, "bytes that are not held");
    }
    refskold_recovery_close(&whole);
    want(refskold_recovery_close(&pieces) == 0 && is_zero(&pieces), "close");
}

int main(void)
{
    size_t length = fread(text, 1, sizeof text, stdin), at = 0;
    refskold_found found;
    struct sizes sizes = { 0 };
    uint64_t texts = 0;
    int status;
    while ((status = refskold_read_checkpoint(text + at, length - at, &found)) == REFSKOLD_FOUND) {
        printf("c%llu %llu", (unsigned long long)found.number, (unsigned long long)found.items);
        if (found.size > 0) printf(" %llu", (unsigned long long)found.size);
        printf("\n");
        if (texts == 0) sizes.first = found.size;
        if (!sizes.is_mixed && found.size != sizes.first) sizes = (struct sizes){ sizes.first, at, 1 };
        at += found.bytes;
        texts++;
    }
    if (status == -EILSEQ) printf("fault %llu\n", (unsigned long long)(at + found.bytes));
    else if (status == 0 && at < length) printf("rest %zu\n", length - at);
    want(status == 0 || status == -EILSEQ, "memory");
    recover(length, texts, length - at, at + found.bytes, status == -EILSEQ, sizes);
    for (size_t k = 0; k < 4; k++) in_pieces(length, (const size_t[]){ 1, 7, 4096, LOG_BYTES }[k]);
    return 0;
}
