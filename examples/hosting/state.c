/* States on disk. Their layout is this host's own:
 *
 *   8 bytes  "MKSTATE1"
 *   8        the mark
 *   8        the count
 *   4        the image's size
 *   4        the window's size: 2432 at a desk, 0 at a wall
 *   ...      the image, then the window
 *   8        a checksum of all before it, FNV-1a
 *
 * Numbers have their highest byte first. */
#include <errno.h>
#include <fcntl.h>
#include <string.h>
#include <unistd.h>

#include "host.h"

enum { MARK_AT = 8, COUNT_AT = 16, IMAGE_SIZE_AT = 24, WINDOW_SIZE_AT = 28, HEAD_SIZE = 32, SUM_SIZE = 8 };

static const char layout[] = "MKSTATE1";
static const uint64_t first_sum = 0xcbf29ce484222325u;

void put(uint8_t *bytes, size_t size, uint64_t value)
{
    for (; size > 0; size--, value >>= 8)
        bytes[size - 1] = (uint8_t)(value & 0xff);
}

uint64_t get(const uint8_t *bytes, size_t size)
{
    uint64_t value = 0;

    for (; size > 0; size--)
        value = value << 8 | *bytes++;
    return value;
}

/* Whether the engine's calls can be given such a count. */
int is_edit_count(uint64_t value)
{
    edit_count count = (edit_count)value;

    return count == value;
}

static uint64_t checksum(uint64_t sum, const uint8_t *bytes, size_t size)
{
    for (; size > 0; size--)
        sum = (sum ^ *bytes++) * 0x100000001b3u;
    return sum;
}

int path_in(char path[PATH_ROOM], const char *folder, const char *name)
{
    int length = snprintf(path, PATH_ROOM, "%s/%s", folder, name);

    errno = ENAMETOOLONG;
    return length > 0 && length < PATH_ROOM;
}

static int write_all(FILE *file, const uint8_t *bytes, size_t size)
{
    return fwrite(bytes, 1, size, file) == size;
}

static int read_all(FILE *file, uint8_t *bytes, size_t size)
{
    return fread(bytes, 1, size, file) == size;
}

static int write_state(FILE *file, const struct state *state, size_t window_size)
{
    uint8_t head[HEAD_SIZE], sum[SUM_SIZE];
    uint64_t value;

    memcpy(head, layout, MARK_AT);
    put(head + MARK_AT, 8, state->mark);
    put(head + COUNT_AT, 8, state->count);
    put(head + IMAGE_SIZE_AT, 4, state->size);
    put(head + WINDOW_SIZE_AT, 4, window_size);
    value = checksum(first_sum, head, sizeof head);
    value = checksum(value, state->image, state->size);
    value = checksum(value, state->window, window_size);
    put(sum, sizeof sum, value);
    return write_all(file, head, sizeof head) && write_all(file, state->image, state->size) &&
           write_all(file, state->window, window_size) && write_all(file, sum, sizeof sum);
}

static int sync_folder(const char *folder)
{
    int descriptor = open(folder, O_RDONLY), is_synced;

    if (descriptor < 0)
        return 0;
    is_synced = fsync(descriptor) == 0;
    return close(descriptor) == 0 && is_synced;
}

/* step: keep */
/* Puts a state on the disk under its name: all of it, or nothing. */
int keep(const char *folder, const char *name, const struct state *state, size_t window_size)
{
    char path[PATH_ROOM], beside[PATH_ROOM];
    FILE *file;
    int is_written;

    if (!path_in(path, folder, name) || snprintf(beside, sizeof beside, "%s.new", path) >= (int)sizeof beside)
        return 0;
    file = fopen(beside, "wb");
    if (file == NULL)
        return 0;
    is_written = write_state(file, state, window_size) && fflush(file) == 0 && fsync(fileno(file)) == 0;
    is_written = fclose(file) == 0 && is_written; /* on the disk, under the other name */
    if (!is_written || rename(beside, path) != 0) {
        unlink(beside);
        return 0;
    }
    return sync_folder(folder); /* now the name is on the disk too */
}
/* end */

/* What is wrong with a head, or NULL. */
static const char *fault_of_head(const uint8_t head[HEAD_SIZE], size_t window_size)
{
    uint64_t size = get(head + IMAGE_SIZE_AT, 4);

    if (memcmp(head, layout, MARK_AT) != 0)
        return "it does not begin with MKSTATE1";
    if (!is_edit_count(get(head + COUNT_AT, 8)))
        return "its count is above the engine's largest";
    if (size > MULKEFI_IMAGE_SIZE)
        return "its image is larger than any that the engine takes";
    if (get(head + WINDOW_SIZE_AT, 4) != window_size)
        return "its window has another size than this engine's";
    return NULL;
}

/* Reads a state, and answers what is wrong with the file, or NULL. */
static const char *read_state(FILE *file, struct state *state, size_t window_size)
{
    uint8_t head[HEAD_SIZE], sum[SUM_SIZE];
    const char *fault;
    uint64_t value;

    if (!read_all(file, head, sizeof head))
        return "it is shorter than 32 bytes";
    fault = fault_of_head(head, window_size);
    if (fault != NULL)
        return fault;
    state->mark = get(head + MARK_AT, 8);
    state->count = (edit_count)get(head + COUNT_AT, 8);
    state->size = (size_t)get(head + IMAGE_SIZE_AT, 4);
    if (!read_all(file, state->image, state->size) || !read_all(file, state->window, window_size) ||
        !read_all(file, sum, sizeof sum) || fgetc(file) != EOF)
        return "its size is not what its first 32 bytes say";
    value = checksum(first_sum, head, sizeof head);
    value = checksum(value, state->image, state->size);
    value = checksum(value, state->window, window_size);
    return value == get(sum, sizeof sum) ? NULL : "its bytes do not give its checksum";
}

/* step: load */
/* Reads what `keep` wrote. A file that was never renamed has another name, and is not looked at. */
enum loaded load(const char *folder, const char *name, struct state *state, size_t window_size, char reason[REASON_ROOM])
{
    char path[PATH_ROOM];
    FILE *file = path_in(path, folder, name) ? fopen(path, "rb") : NULL;
    const char *fault;
    uint32_t refusal;

    if (file == NULL && errno == ENOENT)
        return ABSENT;
    if (file == NULL) {
        snprintf(reason, REASON_ROOM, "%s can't be opened (error %d)", name, errno);
        return UNREADABLE;
    }
    memset(state, 0, sizeof *state);
    fault = read_state(file, state, window_size);
    fclose(file);
    if (fault != NULL) {
        snprintf(reason, REASON_ROOM, "%s is not used: %s", name, fault);
        return UNREADABLE;
    }
    refusal = mulkefi_test(state->image, state->size);
    if (refusal != MULKEFI_ACCEPTED) {
        snprintf(reason, REASON_ROOM, "%s is not used: its image is refused by %u", name, (unsigned)MULKEFI_NUMBER(refusal));
        return UNREADABLE;
    }
    return LOADED;
}
/* end */

/* step: first image */
/* Reads an image from a file of its own, as a drawing program left it. */
int read_image(const char *folder, const char *name, struct state *state, char reason[REASON_ROOM])
{
    char path[PATH_ROOM];
    FILE *file = path_in(path, folder, name) ? fopen(path, "rb") : NULL;
    uint32_t refusal = MULKEFI_BAD_LENGTH;

    if (file == NULL) {
        snprintf(reason, REASON_ROOM, "%s can't be opened (error %d)", name, errno);
        return 0;
    }
    state->size = fread(state->image, 1, sizeof state->image, file);
    if (fgetc(file) == EOF && !ferror(file)) /* else it is larger than any image, or the disk failed */
        refusal = mulkefi_test(state->image, state->size);
    fclose(file);
    if (refusal != MULKEFI_ACCEPTED)
        snprintf(reason, REASON_ROOM, "%s is refused by %u", name, (unsigned)MULKEFI_NUMBER(refusal));
    return refusal == MULKEFI_ACCEPTED;
}
/* end */
