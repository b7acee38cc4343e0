/*
 * For tests, loaded into a host by LD_PRELOAD: keeps a copy of what a power cut
 * would leave of an image file, and lets calls fail.
 *
 *     LOCK_BOARD_FILE     the image file
 *     LOCK_BOARD_DISK     its copy: what is sure to be on the disk
 *     LOCK_BOARD_FAILS    the call of a save that fails: openat, write, fsync,
 *                         renameat, or folder for the fsync of the folder
 *
 * Sure to be on the disk is what a name held when its folder was last brought
 * there, if the file had been before; else nothing of the file is (the copy is
 * then empty).
 */
#define _GNU_SOURCE
#include "lock_board.h"

#include <errno.h>
#include <fcntl.h>
#include <stdarg.h>
#include <stdio.h>
#include <stdlib.h>
#include <string.h>
#include <sys/stat.h>
#include <sys/syscall.h>
#include <unistd.h>

static ino_t on_disk; /* the file that was brought to the disk after it was last written */
static enum { NO_SAVE, NEW_FILE, RENAMED } reached; /* how far a save has come */

static int is_to_fail(const char *call) {
    const char *named = getenv("LOCK_BOARD_FAILS");
    if (!named || strcmp(named, call) != 0)
        return 0;
    errno = EIO;
    return 1;
}

int openat(int folder, const char *path, int flags, ...) {
    va_list more;
    mode_t mode;
    va_start(more, flags);
    mode = flags & O_CREAT ? va_arg(more, mode_t) : 0;
    va_end(more);
    if (flags & O_EXCL) {
        on_disk = 0;
        reached = NEW_FILE;
        if (is_to_fail("openat"))
            return -1;
    }
    return (int)syscall(SYS_openat, folder, path, flags, mode);
}

ssize_t write(int fd, const void *bytes, size_t len) {
    if (len == LOCK_BOARD_IMAGE_LEN && is_to_fail("write"))
        return -1;
    return syscall(SYS_write, fd, bytes, len);
}

int renameat(int from_folder, const char *from, int to_folder, const char *to) {
    if (is_to_fail("renameat"))
        return -1;
    reached = RENAMED;
    return (int)syscall(SYS_renameat, from_folder, from, to_folder, to);
}

/* Copies what the image file holds, or nothing of it if it was not brought to the disk. */
static void copy_image(void) {
    const char *file = getenv("LOCK_BOARD_FILE"), *disk = getenv("LOCK_BOARD_DISK");
    char bytes[LOCK_BOARD_IMAGE_LEN + 1], name[4096];
    struct stat found;
    ssize_t len = 0;
    int fd;
    if (!file || !disk || stat(file, &found) < 0)
        return;
    if (found.st_ino == on_disk && (fd = open(file, O_RDONLY)) >= 0) {
        len = read(fd, bytes, sizeof bytes);
        close(fd);
    }
    snprintf(name, sizeof name, "%s.new", disk);
    fd = open(name, O_WRONLY | O_CREAT | O_TRUNC, 0666);
    if (fd < 0 || len < 0 || syscall(SYS_write, fd, bytes, (size_t)len) != len ||
        rename(name, disk) < 0)
        abort();
    close(fd);
}

int fsync(int fd) {
    struct stat found;
    int is_folder = fstat(fd, &found) == 0 && S_ISDIR(found.st_mode);
    if ((reached == NEW_FILE && is_to_fail("fsync")) ||
        (reached == RENAMED && is_to_fail("folder")) || syscall(SYS_fsync, fd) < 0)
        return -1;
    if (is_folder)
        copy_image();
    else
        on_disk = found.st_ino;
    return 0;
}
