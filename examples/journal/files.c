/* Files: a journal that is created, read and found in its folder, the lock, the lines of the queue and the world. */
#define _POSIX_C_SOURCE 200809L
#include "journal.h"

#include <dirent.h>
#include <errno.h>
#include <fcntl.h>
#include <inttypes.h>
#include <stdarg.h>
#include <stdlib.h>
#include <string.h>
#include <sys/stat.h>
#include <unistd.h>

_Noreturn void stop(const char *format, ...)
{
    va_list values;
    va_start(values, format);
    fflush(stdout);
    fprintf(stderr, "journal: ");
    vfprintf(stderr, format, values);
    fprintf(stderr, "\n");
    va_end(values);
    exit(EXIT_FAILURE);
}

FILE *open_file(const char *path, const char *mode)
{
    FILE *file = fopen(path, mode);
    if (file == NULL) {
        stop("%s: %s", path, strerror(errno));
    }
    return file;
}

uint8_t *read_file(const char *path, size_t *len)
{
    struct stat found;
    FILE *file = open_file(path, "rb");
    if (fstat(fileno(file), &found) != 0 || !S_ISREG(found.st_mode)) {
        stop("%s: not a file that can be read", path);
    }
    *len = (size_t)found.st_size;
    uint8_t *bytes = malloc(*len + 1);
    if (bytes == NULL || fread(bytes, 1, *len, file) != *len || ferror(file)) {
        stop("%s: cannot be read", path);
    }
    fclose(file);
    return bytes;
}

void journal_path(char path[PATH_ROOM], const char *folder, int64_t id, const char *ending)
{
    int size = snprintf(path, PATH_ROOM, "%s/plan-%" PRId64 ".%s", folder, id, ending);
    if (size < 0 || size >= PATH_ROOM) {
        stop("%s: too long a name", folder);
    }
}

void lock_folder(const char *folder)
{
    char path[PATH_ROOM];
    struct flock whole = {.l_type = F_WRLCK, .l_whence = SEEK_SET};
    snprintf(path, sizeof path, "%s/lock", folder);
    int file = open(path, O_RDWR | O_CREAT | O_CLOEXEC, 0666);
    if (file < 0) {
        stop("%s: %s", path, strerror(errno));
    }
    if (fcntl(file, F_SETLK, &whole) != 0) {
        bool taken = errno == EACCES || errno == EAGAIN;
        stop("%s: %s", folder, taken ? "another worker has this folder" : strerror(errno));
    }
}

static int compare_ids(const void *left, const void *right)
{
    int64_t a = *(const int64_t *)left;
    int64_t b = *(const int64_t *)right;
    return a < b ? -1 : a > b;
}

size_t list_plans(const char *folder, int64_t ids[MOST_PLANS])
{
    size_t count = 0;
    DIR *open_folder = opendir(folder);
    if (open_folder == NULL) {
        stop("%s: %s", folder, strerror(errno));
    }
    for (struct dirent *entry = readdir(open_folder); entry != NULL; entry = readdir(open_folder)) {
        int64_t id;
        int end = 0;
        if (sscanf(entry->d_name, "plan-%" SCNd64 ".journal%n", &id, &end) != 1 || end == 0 ||
            entry->d_name[end] != '\0') {
            continue; /* the lock, or a journal whose creation was cut off */
        }
        if (count == MOST_PLANS) {
            stop("%s: more than %d plans", folder, MOST_PLANS);
        }
        ids[count++] = id;
    }
    closedir(open_folder);
    qsort(ids, count, sizeof ids[0], compare_ids);
    return count;
}

/* A name is on the disk once its folder is synced. */
static void sync_folder(const char *folder)
{
    int file = open(folder, O_RDONLY | O_DIRECTORY | O_CLOEXEC);
    if (file < 0 || fsync(file) != 0 || close(file) != 0) {
        stop("%s: cannot be synced: %s", folder, strerror(errno));
    }
}

void create_journal(const char *folder, int64_t id, const uint8_t *sheet, size_t len)
{
    char path[PATH_ROOM];
    char fresh[PATH_ROOM];
    sinewhopa_state state;
    size_t at;
    uint8_t fault = sinewhopa_open(&state, sheet, len, &at);
    if (fault != SINEWHOPA_TAKEN) {
        stop("plan %" PRId64 ": its sheet is turned down: number %u at offset %zu: %s", id, (unsigned)fault, at,
             sinewhopa_refusal_text(fault));
    }
    journal_path(path, folder, id, "journal");
    journal_path(fresh, folder, id, "new");
    if (access(path, F_OK) == 0) { /* nobody creates it meanwhile: the folder is locked */
        stop("%s: is there already", path);
    }
    int file = open(fresh, O_WRONLY | O_CREAT | O_TRUNC | O_CLOEXEC, 0666);
    if (file < 0 || write(file, sheet, len) != (ssize_t)len || fsync(file) != 0 || close(file) != 0) {
        stop("%s: %s", fresh, strerror(errno));
    }
    if (rename(fresh, path) != 0) {
        stop("%s: %s", path, strerror(errno));
    }
    sync_folder(folder);
}

/* A line of a file of lines, without its end. A line that is cut or too long stops the program. */
static bool read_line(FILE *file, const char *path, char *text, int room)
{
    if (fgets(text, room, file) == NULL) {
        if (ferror(file)) {
            stop("%s: cannot be read", path);
        }
        return false;
    }
    size_t size = strlen(text);
    if (size == 0 || text[size - 1] != '\n') {
        stop("%s: a line has no end: %s", path, text);
    }
    text[size - 1] = '\0';
    return true;
}

bool read_reply(FILE *queue, const char *path, reply *one)
{
    char text[200];
    int end = 0;
    if (!read_line(queue, path, text, sizeof text)) {
        return false;
    }
    int read = sscanf(text, "%" SCNd64 "%" SCNd64 "%" SCNd64 "%" SCNd64 "%n", &one->minute, &one->plan, &one->kind,
                      &one->number, &end);
    if (read != 4 || text[end] != '\0' || one->minute < 0 || one->minute > UINT32_MAX ||
        one->kind < SINEWHOPA_HAND_IN || one->kind > SINEWHOPA_FINISH || one->number < 0 ||
        one->number > UINT8_MAX) {
        stop("%s: not a reply (minute plan kind number): %s", path, text);
    }
    return true;
}

bool read_seen(FILE *world, const char *path, seen *one)
{
    char text[200];
    int end = 0;
    int64_t *n = one->numbers;
    if (!read_line(world, path, text, sizeof text)) {
        return false;
    }
    n[3] = 0;
    one->told = sscanf(text, "told %" SCNd64 "%" SCNd64 "%" SCNd64 "%" SCNd64 "%n", &n[0], &n[1], &n[2], &n[3],
                       &end) == 4;
    if (!one->told) {
        sscanf(text, "answered %" SCNd64 "%" SCNd64 "%" SCNd64 "%n", &n[0], &n[1], &n[2], &end);
    }
    if (end == 0 || text[end] != '\0' || n[0] < 0 || n[1] < 0 || n[2] < 0 || n[3] < 0) {
        stop("%s: nothing that an office or a sender has seen: %s", path, text);
    }
    return true;
}

bool read_synced(const char *path, const int64_t *ids, size_t count, size_t *offsets)
{
    char text[200];
    bool rising = true;
    FILE *synced = open_file(path, "r");
    for (size_t place = 0; place < count; place++) {
        offsets[place] = 0;
    }
    while (read_line(synced, path, text, sizeof text)) {
        int64_t id;
        size_t offset;
        if (sscanf(text, "%" SCNd64 "%zu", &id, &offset) != 2) {
            stop("%s: not a plan and an offset: %s", path, text);
        }
        for (size_t place = 0; place < count; place++) {
            if (ids[place] == id) {
                rising = rising && offset >= offsets[place];
                offsets[place] = offset;
            }
        }
    }
    fclose(synced);
    return rising;
}
