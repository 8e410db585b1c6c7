/* Put before the C library: what befalls the file STRIKE_FILE when it is mapped, by STRIKE_HOW.
 *   cut     it is cut to nothing
 *   hold    "held" is said on standard error if STRIKE_SAYS is set, and the pipe STRIKE_PIPE is waited for
 *   number  this signal ends the process
 * Every other file that is mapped ends its process if STRIKE_OTHERS is set, and "ended" is said before.
 * After STRIKE_FORKS processes, if it is set, no more can be started.
 */
#define _GNU_SOURCE
#include <dlfcn.h>
#include <errno.h>
#include <fcntl.h>
#include <signal.h>
#include <stdlib.h>
#include <string.h>
#include <sys/mman.h>
#include <sys/stat.h>
#include <sys/syscall.h>
#include <unistd.h>

static void strike(const char *path)
{
    const char *how = getenv("STRIKE_HOW");
    int ended = 0;
    if (strcmp(how, "cut") == 0) {
        ended = truncate(path, 0);
    } else if (strcmp(how, "hold") == 0) {
        if (getenv("STRIKE_SAYS"))
            ended = write(2, "held\n", 5) != 5;
        close(open(getenv("STRIKE_PIPE"), O_RDONLY));
    } else {
        /* A handler may take the first one and leave the second to the system, as where memory is not there. */
        ended = raise(atoi(how)) || raise(atoi(how));
    }
    if (ended != 0)
        abort();
}

void *mmap(void *start, size_t len, int protection, int flags, int file, off_t offset)
{
    const char *path = getenv("STRIKE_FILE");
    void *mapped = (void *)syscall(SYS_mmap, start, len, protection, flags, file, offset);
    struct stat one, other;
    if (!path || file < 0 || fstat(file, &one) != 0 || stat(path, &other) != 0)
        return mapped;
    if (one.st_dev == other.st_dev && one.st_ino == other.st_ino)
        strike(path);
    else if (getenv("STRIKE_OTHERS") && write(2, "ended\n", 6) == 6)
        raise(SIGKILL);
    return mapped;
}

pid_t fork(void)
{
    static long forks = 0;
    const char *most = getenv("STRIKE_FORKS");
    pid_t (*real)(void);
    if (most && forks++ >= atol(most)) {
        errno = EAGAIN;
        return -1;
    }
    *(void **)&real = dlsym(RTLD_NEXT, "fork");
    return real();
}
