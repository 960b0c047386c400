/* Loaded before a program, this makes one of its devices a poor one. FAILING_DEVICE says which: the path of a file, whichever way it is
   used, or, of the child that is started as FAILING_CHILD, its `input`, its `output`, its `start` or its `end`, which is waited for.
   Each call gives or takes at most FAILING_MOST bytes. Call number FAILING_CALL, counted from 1, fails as FAILING_HOW says: with this error
   number, or, where it is EINTR, a hundred times, or, where it is 0, not at all: it gives or takes one byte. The file FAILING_MARK is made then.
   A read of a child's output fails once there is something to read. Children know nothing of all this. */
#define _GNU_SOURCE
#include <dlfcn.h>
#include <errno.h>
#include <fcntl.h>
#include <poll.h>
#include <spawn.h>
#include <stdatomic.h>
#include <stdio.h>
#include <stdlib.h>
#include <string.h>
#include <sys/syscall.h>
#include <sys/uio.h>
#include <sys/wait.h>
#include <unistd.h>

#define INTERRUPTIONS 100

enum { NAME = 4096 };

static char wanted[NAME], program[NAME], mark[NAME];
static char input[NAME], output[NAME];
static size_t most = (size_t)-1;
static long failing_call;
static int how;
static atomic_long calls;
static atomic_int interruptions;
static atomic_int child;

/* The pipes of the child that this thread starts next. */
static _Thread_local char next_input[NAME], next_output[NAME];

static const char *told(const char *name)
{
    const char *value = getenv(name);
    return value ? value : "";
}

__attribute__((constructor)) static void begin(void)
{
    snprintf(wanted, NAME, "%s", told("FAILING_DEVICE"));
    snprintf(program, NAME, "%s", told("FAILING_CHILD"));
    snprintf(mark, NAME, "%s", told("FAILING_MARK"));
    failing_call = atol(told("FAILING_CALL"));
    how = atoi(told("FAILING_HOW"));
    if (*told("FAILING_MOST"))
        most = strtoul(told("FAILING_MOST"), NULL, 10);
    unsetenv("LD_PRELOAD");
}

/* What a file is: its path, or a pipe's name, which both its ends have. */
static const char *name_of(int file, char *name)
{
    char link[64];
    snprintf(link, sizeof link, "/proc/self/fd/%d", file);
    ssize_t length = readlink(link, name, NAME - 1);
    name[length < 0 ? 0 : length] = 0;
    return name;
}

static int is_wanted(int file, const char *way, const char *pipe)
{
    char name[NAME];
    int saved = errno;
    int is = strcmp(name_of(file, name), strcmp(wanted, way) == 0 ? pipe : wanted) == 0 && *name;
    errno = saved;
    return is;
}

/* How many bytes a call of the device may give or take: as many as are asked for, fewer, or none where it fails; errno then says how. */
static size_t allowed(size_t count)
{
    if (atomic_load(&interruptions) > 0) {
        atomic_fetch_sub(&interruptions, 1);
        errno = EINTR;
        return 0;
    }
    if (atomic_fetch_add(&calls, 1) + 1 == failing_call) {
        close(open(mark, O_WRONLY | O_CREAT, 0600));
        if (how == EINTR)
            atomic_store(&interruptions, INTERRUPTIONS - 1);
        errno = how;
        return how == 0 && count > 0;
    }
    return count < most ? count : most;
}

ssize_t read(int file, void *bytes, size_t count)
{
    if (count > 0 && is_wanted(file, "output", output)) {
        struct pollfd one = {file, POLLIN, 0};
        if (strcmp(wanted, "output") == 0)
            poll(&one, 1, -1);
        count = allowed(count);
        if (count == 0)
            return -1;
    }
    return syscall(SYS_read, file, bytes, count);
}

ssize_t write(int file, const void *bytes, size_t count)
{
    if (count > 0 && is_wanted(file, "input", input)) {
        count = allowed(count);
        if (count == 0)
            return -1;
    }
    return syscall(SYS_write, file, bytes, count);
}

ssize_t readv(int file, const struct iovec *parts, int count)
{
    return count == 0 ? 0 : read(file, parts[0].iov_base, parts[0].iov_len);
}

ssize_t writev(int file, const struct iovec *parts, int count)
{
    return count == 0 ? 0 : write(file, parts[0].iov_base, parts[0].iov_len);
}

/* The C library's own function of a name. */
static void *own_of(const char *name)
{
    return dlsym(RTLD_NEXT, name);
}

int posix_spawn_file_actions_adddup2(posix_spawn_file_actions_t *actions, int file, int as)
{
    int (*own)(posix_spawn_file_actions_t *, int, int);
    *(void **)&own = own_of("posix_spawn_file_actions_adddup2");
    if (as == STDIN_FILENO)
        name_of(file, next_input);
    if (as == STDOUT_FILENO)
        name_of(file, next_output);
    return own(actions, file, as);
}

int posix_spawn(pid_t *started, const char *path, const posix_spawn_file_actions_t *actions, const posix_spawnattr_t *attributes,
                char *const words[], char *const environment[])
{
    int (*own)(pid_t *, const char *, const posix_spawn_file_actions_t *, const posix_spawnattr_t *, char *const[], char *const[]);
    *(void **)&own = own_of("posix_spawn");
    /* setsid(1) becomes the program that it names */
    const char *name = strcmp(path, "/usr/bin/setsid") == 0 && words[1] && words[2] ? words[2] : words[0];
    int is_program = *program && strcmp(name, program) == 0;
    if (is_program && strcmp(wanted, "start") == 0 && allowed(1) == 0)
        return errno;
    int status = own(started, path, actions, attributes, words, environment);
    if (is_program && status == 0) {
        strcpy(input, next_input);
        strcpy(output, next_output);
        atomic_store(&child, *started);
    }
    return status;
}

int waitid(idtype_t kind, id_t process, siginfo_t *about, int options)
{
    if (kind == P_PID && strcmp(wanted, "end") == 0 && (int)process == atomic_load(&child)) {
        /* two threads ask, so each call fails after the first that does */
        static atomic_int fails;
        if (atomic_load(&fails) || allowed(1) == 0) {
            atomic_store(&fails, 1);
            errno = how;
            return -1;
        }
    }
    return syscall(SYS_waitid, kind, process, about, options, NULL);
}
