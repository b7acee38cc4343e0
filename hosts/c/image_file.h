/*
 * A board's image that is kept in a file, for the hosts in C, COBOL and Rust.
 *
 * The guarantee: whatever ends a session at whatever moment, be it a signal, a
 * crash or a power cut, the file holds the board after the last request that was
 * answered, or after the one that was being answered; never an older board and
 * never a part of one. It rests on a disk that has what it says it has.
 *
 * For that a host saves the image after each call and before it shows the
 * call's journal lines. A request whose answer was not seen may be sent again:
 * if it was served, it is refused now and changes nothing.
 */
#ifndef IMAGE_FILE_H
#define IMAGE_FILE_H

#include <stddef.h>
#include <stdint.h>

/* Each function answers 0, or -1 after a message on standard error. */

/*
 * Reads an image of LOCK_BOARD_IMAGE_LEN bytes from a file. If it holds no sound
 * board, refusal 1 is shown, and of an image of version 1.6 or before which one it is.
 */
int image_file_read(const char *path, uint8_t *image);

/*
 * Takes the file for this process, until it ends, and reads it. If there is no
 * file, it is made, with the empty board. If another process has it, that is
 * told. A symbolic link stands for the file that it leads to. FILE.lock, made
 * beside the file, is what is locked. A process takes one file.
 */
int image_file_open(const char *path, uint8_t *image);

/*
 * Replaces the file by one with the image, mode and owner kept, and returns when
 * that is on the disk. FILE.new is written beside and renamed, so that the file
 * is at every moment the old one or the new one; a FILE.new that an ended session
 * left is removed by the next. Writes nothing if the image is what the file
 * holds, as after a refused call, or if no file was opened.
 *
 * If that fails, the line, whose number is told, must not be answered. The file
 * is then as it was; only if nothing but the folder could not be brought to the
 * disk may it be the new one, and that is told.
 */
int image_file_save(const uint8_t *image, unsigned long line);

/* The path of the file that was opened; NULL if none was. */
const char *image_file_path(void);

#endif
