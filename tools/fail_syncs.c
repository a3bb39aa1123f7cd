/* Fails chosen syncs of one run of the program, and keeps a log of what the run did to its media: for tools/fail_syncs,
 * which compiles this and lets the dynamic linker load it before the C library (LD_PRELOAD).
 *
 * FAIL_SYNCS_ROOM is the folder of the media, FAIL_SYNCS_LOG the path of the log, and FAIL_SYNCS the syncs that fail, as
 * "NAME K," for the K-th sync of the file NAME in that folder, or of the folder itself where NAME is ".". A sync that
 * fails does nothing and answers EIO; what it would have brought to the device stays in the file, where reads go on
 * showing it. All other calls do what they always do.
 *
 * A record of the log has a letter (w written, s synced, f failed, r replied), the name in 15 bytes, and two numbers of
 * 64 bits: the place and the length. Behind a w stand the bytes that were written. A reply is a write to file number 1.
 */
#define _GNU_SOURCE
#include <errno.h>
#include <fcntl.h>
#include <limits.h>
#include <stdint.h>
#include <stdio.h>
#include <stdlib.h>
#include <string.h>
#include <sys/syscall.h>
#include <sys/uio.h>
#include <unistd.h>

struct record {
    char letter, name[15];
    uint64_t place, length;
};

static int log_number = -1;
static const char *room, *faults;
static struct { char name[15]; int count; } synced[16]; /* how often each file was synced */

__attribute__((constructor)) static void begin(void) {
    const char *path = getenv("FAIL_SYNCS_LOG");
    room = getenv("FAIL_SYNCS_ROOM");
    faults = getenv("FAIL_SYNCS");
    if (!path || !room || !faults)
        return;
    int number = open(path, O_WRONLY | O_CREAT | O_TRUNC | O_APPEND | O_CLOEXEC, 0600);
    log_number = fcntl(number, F_DUPFD_CLOEXEC, 900); /* the numbers of the program's files stay what they were */
    close(number);
    if (log_number < 0)
        abort();
}

/* The name of the file in the room that is open under this number; "." is the room, and "" stands for any other file. */
static void name_of(int number, char name[15]) {
    char link[40], path[PATH_MAX];
    size_t begins = strlen(room);
    memset(name, 0, 15);
    snprintf(link, sizeof link, "/proc/self/fd/%d", number);
    ssize_t length = readlink(link, path, sizeof path - 1);
    if (log_number < 0 || length < (ssize_t)begins || memcmp(path, room, begins) != 0)
        return;
    path[length] = 0;
    if (path[begins] == 0)
        strcpy(name, ".");
    else if (path[begins] == '/' && strlen(path + begins + 1) < 15)
        strcpy(name, path + begins + 1);
}

static void keep(char letter, const char *name, off_t place, size_t length, const void *bytes) {
    struct record record = {.letter = letter, .place = (uint64_t)place, .length = length};
    struct iovec parts[] = {{&record, sizeof record}, {(void *)bytes, bytes ? length : 0}};
    memcpy(record.name, name, 15);
    int told = errno;
    size_t whole = sizeof record + parts[1].iov_len;
    if (syscall(SYS_writev, log_number, parts, 2) != (long)whole)
        abort();
    errno = told;
}

static int has_to_fail(const char *name) {
    char sought[40];
    int i = 0;
    while (synced[i].name[0] && strcmp(synced[i].name, name) != 0)
        if (++i == 15)
            abort();
    memcpy(synced[i].name, name, 15);
    snprintf(sought, sizeof sought, "%s %d,", name, ++synced[i].count);
    return strstr(faults, sought) != NULL;
}

static int sync_file(long call, int number) {
    char name[15];
    if (log_number >= 0)
        name_of(number, name);
    if (log_number < 0 || !name[0])
        return (int)syscall(call, number);
    if (has_to_fail(name)) {
        keep('f', name, 0, 0, NULL);
        errno = EIO;
        return -1;
    }
    int done = (int)syscall(call, number);
    if (done == 0)
        keep('s', name, 0, 0, NULL);
    return done;
}

int fsync(int number) {
    return sync_file(SYS_fsync, number);
}

int fdatasync(int number) {
    return sync_file(SYS_fdatasync, number);
}

ssize_t pwrite(int number, const void *bytes, size_t length, off_t place) {
    ssize_t done = syscall(SYS_pwrite64, number, bytes, length, place);
    char name[15];
    if (done > 0 && log_number >= 0) {
        name_of(number, name);
        if (name[0])
            keep('w', name, place, (size_t)done, bytes);
    }
    return done;
}

ssize_t pwrite64(int number, const void *bytes, size_t length, off_t place) {
    return pwrite(number, bytes, length, place);
}

ssize_t write(int number, const void *bytes, size_t length) {
    ssize_t done = syscall(SYS_write, number, bytes, length);
    if (done > 0 && number == STDOUT_FILENO && log_number >= 0)
        keep('r', "", 0, (size_t)done, NULL);
    return done;
}

ssize_t writev(int number, const struct iovec *parts, int count) {
    ssize_t done = syscall(SYS_writev, number, parts, count);
    if (done > 0 && number == STDOUT_FILENO && log_number >= 0)
        keep('r', "", 0, (size_t)done, NULL);
    return done;
}
