#define _GNU_SOURCE
#include "volume.h"
#include <errno.h>
#include <stdlib.h>
#include <string.h>

/* Whether a log with these fields is this volume's. A bare one names none. */
static bool is_own(const struct volume *v, const refskold_log_fields *fields)
{
    static const uint8_t none[NAME];
    uint8_t together[NAME];
    name_together(v->name, texts_together(fields->name), together);
    return memcmp(fields->name, v->name, NAME) == 0 || memcmp(fields->name, together, NAME) == 0 || memcmp(fields->name, none, NAME) == 0;
}

static errcode_t lay_block(struct volume *v, refskold_recovery *recovery, uint64_t block)
{
    uint8_t content[REFSKOLD_BLOCK];
    if (block >= v->blocks) return EUCLEAN;
    if (!is_read(v->home, content, v->size, block * v->size)) return EIO;
    if (refskold_recovery_lay_sized(recovery, block, content, v->size) != 0) return EUCLEAN;
    return is_written(v->home, content, v->size, block * v->size) ? 0 : EIO;
}

static errcode_t lay(struct volume *v, refskold_recovery *recovery, const refskold_log_told *told)
{
    uint64_t last, block;
    errcode_t error = 0;
    if (told->blocks > 0 && told->size != v->size) return EUCLEAN; // a log of other blocks is another file system's
    // nothing is laid of a log that goes past the end of the image: the blocks ascend
    if (told->blocks > 0 && (refskold_recovery_block(recovery, told->blocks - 1, &last) != 0 || last >= v->blocks)) return EUCLEAN;
    for (uint64_t k = 0; error == 0 && k < told->blocks; k++)
        error = refskold_recovery_block(recovery, k, &block) != 0 ? EUCLEAN : lay_block(v, recovery, block);
    return error;
}

/* Lays over the home device what the log says, and then empties the log. */
errcode_t volume_recover(struct volume *v, bool takes_any)
{
    refskold_recovery recovery = REFSKOLD_NONE;
    refskold_log_told told;
    refskold_log_fields fields;
    if (log_is_empty(&v->log)) return 0;
    int status = log_read(&v->log, &recovery, &told, &fields);
    errcode_t error = status == 0 ? 0 : status == -EILSEQ ? EUCLEAN : -status;
    if (error == 0 && told.texts > 0 && !takes_any && !is_own(v, &fields)) error = EXDEV;
    // texts that count together and are not all there belong to a change that nobody was told of
    if (error == 0 && told.texts >= texts_together(fields.name)) error = lay(v, &recovery, &told);
    refskold_recovery_close(&recovery);
    if (error != 0) return error;
    return log_empty(&v->log) == 0 ? 0 : EIO;
}
