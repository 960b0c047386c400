/* Loaded before a program, this makes its devices poor ones: a file gives a byte at a time and standard output takes one,
   each is interrupted at every other call, and each fails for good at a call, counted from 1: at call FAILING_READ or
   FAILING_WRITE. */
#include <errno.h>
#include <stdlib.h>
#include <sys/syscall.h>
#include <sys/uio.h>
#include <unistd.h>

struct device {
    const char *failing;
    long calls;
};

static struct device files = {"FAILING_READ", 0};
static struct device output = {"FAILING_WRITE", 0};

/* Whether this call fails; errno then says how. */
static int fails(struct device *device)
{
    const char *number = getenv(device->failing);
    ++device->calls;
    errno = number && device->calls == atol(number) ? EIO : EINTR;
    return errno == EIO || device->calls % 2 == 1;
}

ssize_t read(int file, void *bytes, size_t count)
{
    if (file <= STDERR_FILENO || count == 0)
        return syscall(SYS_read, file, bytes, count);
    return fails(&files) ? -1 : syscall(SYS_read, file, bytes, 1);
}

ssize_t write(int file, const void *bytes, size_t count)
{
    if (file != STDOUT_FILENO || count == 0)
        return syscall(SYS_write, file, bytes, count);
    return fails(&output) ? -1 : syscall(SYS_write, file, bytes, 1);
}

ssize_t readv(int file, const struct iovec *parts, int count)
{
    return count == 0 ? 0 : read(file, parts[0].iov_base, parts[0].iov_len);
}

ssize_t writev(int file, const struct iovec *parts, int count)
{
    return count == 0 ? 0 : write(file, parts[0].iov_base, parts[0].iov_len);
}
