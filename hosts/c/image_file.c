#define _POSIX_C_SOURCE 200809L
#include "image_file.h"

#include "lock_board.h"
#include "words.h"

#include <errno.h>
#include <fcntl.h>
#include <stdio.h>
#include <stdlib.h>
#include <string.h>
#include <sys/stat.h>
#include <unistd.h>

#define MOST_LINKS 40 /* symbolic links that are followed one after another */

#define NO_FILE "this is no plain file; name that of an image, or a new one"

/* Images of versions 1.0 to 1.4 had no counts, those of 1.5 and 1.6 no inquiry. */
static const struct {
    int len;
    const char *versions, *section; /* of docs/OPERATING.md */
} old_images[] = {{1155, "version 1.4 and before", "From 1.4 to 1.5"},
                  {1187, "versions 1.5 and 1.6", "From 1.6 to 1.7"}};

/* The file that this process has taken. */
static struct {
    char *path; /* as the user named it; NULL while there is none */
    int folder;
    char *name, *new_name;               /* within the folder */
    uint8_t image[LOCK_BOARD_IMAGE_LEN]; /* what the file holds */
} taken;

static int failed(const char *path, const char *why) {
    fprintf(stderr, "%s: %s\n", path, why);
    return -1;
}

const char *image_file_path(void) { return taken.path; }

/* Two texts as one, to be freed. Without memory the process ends: nothing is served yet. */
static char *joined(const char *first, const char *second) {
    size_t len = strlen(first), more = strlen(second);
    char *both = malloc(len + more + 1);
    if (!both) {
        failed(first, strerror(ENOMEM));
        exit(1);
    }
    memcpy(both, first, len);
    memcpy(both + len, second, more + 1);
    return both;
}

/* Whether an image holds a sound board: only such a one has its order given. */
static int is_sound(const uint8_t *image, size_t len) {
    uint8_t order[LOCK_BOARD_PROGRAMS];
    return lock_board_order(image, len, order, sizeof order) != LOCK_BOARD_UNSOUND;
}

/* Reads all of a plain file, but at most max bytes. -1 after a message. */
static int read_bytes(int fd, const char *path, uint8_t *bytes, size_t max) {
    struct stat found;
    size_t len = 0;
    ssize_t n = 1;
    if (fd < 0 || fstat(fd, &found) < 0)
        return failed(path, strerror(errno));
    if (!S_ISREG(found.st_mode))
        return failed(path, NO_FILE);
    while (len < max && n != 0) {
        n = read(fd, bytes + len, max - len);
        if (n < 0 && errno != EINTR)
            return failed(path, strerror(errno));
        if (n > 0)
            len += (size_t)n;
    }
    return (int)len;
}

/* Tells refusal 1, and of an old version's image what to do; answers -1. */
static int not_sound(const char *path, int len) {
    fprintf(stderr, "%s: refusal %d: %s", path, LOCK_BOARD_REFUSAL_NOT_SOUND,
            refusal_words(LOCK_BOARD_REFUSAL_NOT_SOUND));
    for (size_t i = 0; i < sizeof old_images / sizeof *old_images; i++)
        if (len == old_images[i].len)
            fprintf(stderr,
                    ": it has the length of images of %s; empty its board with such a version,"
                    " then begin with a new file (docs/OPERATING.md, \"%s\")",
                    old_images[i].versions, old_images[i].section);
    fputc('\n', stderr);
    return -1;
}

/* Reads the image of a file that was named from a folder. */
static int read_image(int folder, const char *name, const char *path, uint8_t *image) {
    uint8_t bytes[LOCK_BOARD_IMAGE_LEN + 1]; /* one more, to notice a longer file */
    int fd = openat(folder, name, O_RDONLY | O_NONBLOCK | O_CLOEXEC);
    int len = read_bytes(fd, path, bytes, sizeof bytes);
    if (fd >= 0)
        close(fd);
    if (len < 0)
        return -1;
    if (!is_sound(bytes, (size_t)len))
        return not_sound(path, len);
    memcpy(image, bytes, LOCK_BOARD_IMAGE_LEN);
    return 0;
}

int image_file_read(const char *path, uint8_t *image) {
    return read_image(AT_FDCWD, path, path, image);
}

/* The path that a link holds, seen from the link's own folder; NULL if the path is no link. */
static char *led_to(const char *path) {
    char target[4096];
    const char *slash = strrchr(path, '/');
    ssize_t len = readlink(path, target, sizeof target - 1);
    char *folder, *whole;
    if (len < 0)
        return NULL;
    target[len] = 0;
    if (target[0] == '/' || !slash)
        return joined(target, "");
    folder = joined(path, "");
    folder[slash + 1 - path] = 0;
    whole = joined(folder, target);
    free(folder);
    return whole;
}

/* Opens the folder of the file, all links of the file's own name followed, and notes the names. */
static int find_place(const char *path) {
    char *whole = joined(path, ""), *next, *slash;
    for (int links = 0; (next = led_to(whole)) != NULL; links++) {
        free(whole);
        whole = next;
        if (links == MOST_LINKS) {
            errno = ELOOP;
            return -1;
        }
    }
    slash = strrchr(whole, '/');
    taken.name = joined(slash ? slash + 1 : whole, "");
    taken.new_name = joined(taken.name, ".new");
    if (slash)
        slash[slash == whole] = 0; /* the folder, "/" itself among them */
    taken.folder = open(slash ? whole : ".", O_RDONLY | O_DIRECTORY | O_CLOEXEC);
    free(whole);
    return taken.folder < 0 ? -1 : 0;
}

/* Keeps other processes off the file until this one ends. */
static int lock(const char *path) {
    struct flock all = {.l_type = F_WRLCK, .l_whence = SEEK_SET};
    char *name = joined(taken.name, ".lock");
    int fd = openat(taken.folder, name, O_RDWR | O_CREAT | O_CLOEXEC, 0666), result = -1;
    if (fd < 0)
        fprintf(stderr, "%s: %s cannot be made beside it: %s\n", path, name, strerror(errno));
    else if (fcntl(fd, F_SETLK, &all) < 0)
        failed(path, errno == EACCES || errno == EAGAIN
                         ? "another session uses the image; end that one, or name another file"
                         : strerror(errno));
    else
        result = 0;
    free(name);
    return result; /* fd stays open: the lock goes with the process */
}

/*
 * Writes the image to an open file, down to the disk, with mode and owner of the
 * file to replace. A user who may not give files away keeps the mode alone.
 */
static int write_image(int fd, const struct stat *old, const uint8_t *image) {
    size_t done = 0;
    if (old && fchown(fd, old->st_uid, old->st_gid) < 0 && errno != EPERM)
        return -1;
    if (old && fchmod(fd, old->st_mode & 07777) < 0)
        return -1;
    while (done < LOCK_BOARD_IMAGE_LEN) {
        ssize_t n = write(fd, image + done, LOCK_BOARD_IMAGE_LEN - done);
        if (n < 0 && errno != EINTR)
            return -1;
        if (n > 0)
            done += (size_t)n;
    }
    return fsync(fd);
}

/* Writes the new file beside the old one. -1 with the reason in errno. */
static int write_new(const uint8_t *image) {
    const int flags = O_WRONLY | O_CREAT | O_EXCL | O_CLOEXEC;
    struct stat found;
    const struct stat *old = fstatat(taken.folder, taken.name, &found, 0) == 0 ? &found : NULL;
    int fd = openat(taken.folder, taken.new_name, flags, old ? 0600 : 0666), why;
    if (fd < 0)
        return -1;
    if (write_image(fd, old, image) < 0) {
        why = errno;
        close(fd);
        errno = why;
        return -1;
    }
    return close(fd);
}

/*
 * Puts the image in the place of the file. With the reason in errno, KEPT: the
 * file is as it was; UNSURE: it is the new one, but perhaps not on the disk.
 */
enum { KEPT = -1, UNSURE = -2 };

static int replace(const uint8_t *image) {
    int why;
    if (write_new(image) < 0 ||
        renameat(taken.folder, taken.new_name, taken.folder, taken.name) < 0) {
        why = errno;
        unlinkat(taken.folder, taken.new_name, 0);
        errno = why;
        return KEPT;
    }
    memcpy(taken.image, image, sizeof taken.image);
    return fsync(taken.folder) < 0 ? UNSURE : 0;
}

/*
 * Brings the file that was found to the disk: the session that wrote it may have
 * been ended before it could, and what is answered from now on stands on it.
 */
static int keep_found(void) {
    int fd = openat(taken.folder, taken.name, O_RDONLY | O_CLOEXEC), result;
    if (fd < 0)
        return -1;
    result = fsync(fd);
    close(fd);
    return result < 0 ? result : fsync(taken.folder);
}

int image_file_open(const char *path, uint8_t *image) {
    struct stat found;
    if (find_place(path) < 0)
        return failed(path, strerror(errno));
    if (!taken.name[0] ||
        (fstatat(taken.folder, taken.name, &found, 0) == 0 && !S_ISREG(found.st_mode)))
        return failed(path, NO_FILE);
    if (lock(path) < 0)
        return -1;
    unlinkat(taken.folder, taken.new_name, 0); /* what a session that was ended may have left */
    if (fstatat(taken.folder, taken.name, &found, 0) == 0 || errno != ENOENT) {
        if (read_image(taken.folder, taken.name, path, image) < 0)
            return -1;
        if (keep_found() < 0)
            return failed(path, strerror(errno));
    } else {
        lock_board_empty(image, LOCK_BOARD_IMAGE_LEN);
        if (replace(image) < 0) {
            fprintf(stderr, "%s: the image cannot be made: %s\n", path, strerror(errno));
            return -1;
        }
    }
    memcpy(taken.image, image, sizeof taken.image);
    taken.path = joined(path, "");
    return 0;
}

int image_file_save(const uint8_t *image, unsigned long line) {
    int result;
    if (!taken.path || memcmp(taken.image, image, sizeof taken.image) == 0)
        return 0;
    result = replace(image);
    if (result == 0)
        return 0;
    fprintf(stderr, "%s: the image cannot be saved through %s: %s\n", taken.path, taken.new_name,
            strerror(errno));
    if (result == KEPT)
        fprintf(stderr,
                "line %lu is not answered, and the image is as before it: mend this, then begin "
                "again with line %lu\n",
                line, line);
    else
        fprintf(stderr,
                "line %lu is not answered, and the image may be that before it or that after it: "
                "mend this, then look at the board before you go on\n",
                line);
    return -1;
}
