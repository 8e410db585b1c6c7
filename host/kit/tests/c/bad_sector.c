/* Put before the C library: a read that reaches the byte that BAD_BYTE names fails, as on a bad sector. */
#include <errno.h>
#include <stdlib.h>
#include <string.h>
#include <sys/types.h>
#include <unistd.h>

ssize_t pread64(int file, void *bytes, size_t len, off_t offset)
{
    long bad = atol(getenv("BAD_BYTE"));
    (void)file;
    if (offset <= bad && bad < offset + (off_t)len) {
        errno = EIO;
        return -1;
    }
    /* No more is asked of the bytes: the audit reads them elsewhere. */
    memset(bytes, 0, len);
    return (ssize_t)len;
}
