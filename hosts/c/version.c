#include "version.h"

#include "lock_board.h"
#include "lock_board_kit.h"

#include <stdio.h>

int show_version(void) {
    printf("lock board %s, proved with %s\n", LOCK_BOARD_VERSION, LOCK_BOARD_KIT);
    return fflush(stdout) == 0 ? 0 : 1;
}
