/*
 * spent INPUT COMMAND ..: runs the command on a file, its output thrown away,
 * and prints the microseconds of processor time that it took.
 */
#include <fcntl.h>
#include <stdio.h>
#include <sys/resource.h>
#include <sys/wait.h>
#include <unistd.h>

/* Standard input or output of the command. */
static void opened(const char *path, int flags, int fd) {
    int file = open(path, flags);

    if (file < 0 || dup2(file, fd) < 0)
        _exit(127);
    close(file);
}

int main(int argc, char **argv) {
    struct rusage use;
    int status;
    pid_t child;

    if (argc < 3)
        return 2;
    child = fork();
    if (child == 0) {
        opened(argv[1], O_RDONLY, STDIN_FILENO);
        opened("/dev/null", O_WRONLY, STDOUT_FILENO);
        execvp(argv[2], argv + 2);
        _exit(127);
    }
    if (child < 0 || wait4(child, &status, 0, &use) != child || status != 0)
        return 1;
    printf("%lld\n", (use.ru_utime.tv_sec + use.ru_stime.tv_sec) * 1000000LL + use.ru_utime.tv_usec + use.ru_stime.tv_usec);
    return 0;
}
