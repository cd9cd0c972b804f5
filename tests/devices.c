/* Stands before the system's files (LD_PRELOAD) and lets those fail that a program opens by a relative path, and its standard output,
 * whose name is 1. tests/devices compiles it, and says by the environment what happens:
 *
 *   BITE     a read or a write takes at most so many bytes
 *   EACH     before each read and write so many in a row are interrupted
 *   FAILS    the name of the file whose reads or writes fail, once PLACE bytes of it were taken, with the number ERROR, or take nothing
 *            where that is 0; and go on after TIMES of them, where that is not 0
 *   OPENING  which opening of that file fails so, from 1; each one, where it is 0
 *   LOG      the file descriptor to which a line is written for each of these files that is opened or made, also if it stands for
 *            a standard stream then, that was read to its end, and that is closed
 */
#define _GNU_SOURCE
#include <dlfcn.h>
#include <errno.h>
#include <fcntl.h>
#include <stdarg.h>
#include <stdlib.h>
#include <string.h>
#include <unistd.h>

#define MOST 1024
#define LONGEST 64

struct device {
    char name[LONGEST];
    size_t taken;
    unsigned long opening, failed, interrupted;
};

static struct device devices[MOST];
static const char *failing;
static size_t bite, place;
static unsigned long each, times, opening, openings;
static int error_number, log_descriptor;
static ssize_t (*system_read)(int, void *, size_t);
static ssize_t (*system_write)(int, const void *, size_t);
static int (*system_open)(const char *, int, ...);
static int (*system_close)(int);

static unsigned long number(const char *name)
{
    const char *text = getenv(name);
    return text ? strtoul(text, NULL, 10) : 0;
}

static void begin(void)
{
    if (system_read)
        return;
    system_write = (ssize_t (*)(int, const void *, size_t))dlsym(RTLD_NEXT, "write");
    system_open = (int (*)(const char *, int, ...))dlsym(RTLD_NEXT, "open");
    system_close = (int (*)(int))dlsym(RTLD_NEXT, "close");
    system_read = (ssize_t (*)(int, void *, size_t))dlsym(RTLD_NEXT, "read");
    failing = getenv("FAILS");
    bite = number("BITE");
    place = number("PLACE");
    each = number("EACH");
    times = number("TIMES");
    opening = number("OPENING");
    error_number = (int)number("ERROR");
    log_descriptor = (int)number("LOG");
    strcpy(devices[1].name, "1");
}

/* What has a name here, or NULL. */
static struct device *device_of(int fd)
{
    begin();
    return fd >= 0 && fd < MOST && devices[fd].name[0] ? &devices[fd] : NULL;
}

static void report(const char *what, const char *name)
{
    char line[2 * LONGEST];
    size_t length = strlen(what);
    if (!log_descriptor)
        return;
    memcpy(line, what, length);
    line[length] = ' ';
    strcpy(line + length + 1, name);
    strcat(line, "\n");
    if (system_write(log_descriptor, line, strlen(line)) < 0)
        _exit(99);
}

/* Whether a try fails, with what it returns; else how many bytes it may take of so many. */
static int fails(struct device *device, size_t *count, ssize_t *result)
{
    *result = -1;
    if (*count == 0)
        return 0;
    if (device->interrupted < each) {
        device->interrupted += 1;
        errno = EINTR;
        return 1;
    }
    device->interrupted = 0;
    if (bite && *count > bite)
        *count = bite;
    if (!failing || strcmp(failing, device->name) != 0 || (times && device->failed == times))
        return 0;
    if (opening && device->opening != opening)
        return 0;
    if (device->taken < place) {
        if (*count > place - device->taken)
            *count = place - device->taken;
        return 0;
    }
    device->failed += 1;
    errno = error_number;
    if (!error_number)
        *result = 0;
    return 1;
}

/* What came of a try, after the device has counted the bytes that moved. */
static ssize_t moved(struct device *device, ssize_t result)
{
    if (result > 0)
        device->taken += (size_t)result;
    return result;
}

ssize_t read(int fd, void *bytes, size_t count)
{
    struct device *device = device_of(fd);
    size_t asked = count;
    ssize_t result;
    if (!device)
        return system_read(fd, bytes, count);
    if (fails(device, &count, &result))
        return result;
    result = moved(device, system_read(fd, bytes, count));
    if (result == 0 && asked)
        report("ended", device->name);
    return result;
}

ssize_t write(int fd, const void *bytes, size_t count)
{
    struct device *device = device_of(fd);
    ssize_t result;
    if (!device)
        return system_write(fd, bytes, count);
    if (fails(device, &count, &result))
        return result;
    return moved(device, system_write(fd, bytes, count));
}

static int opened(int fd, const char *path, int flags)
{
    if (fd < 0 || fd >= MOST || path[0] == '/' || strlen(path) >= LONGEST)
        return fd;
    memset(&devices[fd], 0, sizeof devices[fd]);
    strcpy(devices[fd].name, path);
    if (failing && strcmp(failing, path) == 0)
        devices[fd].opening = ++openings;
    report((flags & O_ACCMODE) == O_RDONLY ? "opened" : "made", path);
    if (fd <= 2)
        report("stream", path);
    return fd;
}

int open(const char *path, int flags, ...)
{
    va_list more;
    int mode;
    begin();
    va_start(more, flags);
    mode = flags & O_CREAT ? va_arg(more, int) : 0;
    va_end(more);
    return opened(system_open(path, flags, mode), path, flags);
}

int open64(const char *path, int flags, ...)
{
    va_list more;
    int mode;
    begin();
    va_start(more, flags);
    mode = flags & O_CREAT ? va_arg(more, int) : 0;
    va_end(more);
    return opened(system_open(path, flags | O_LARGEFILE, mode), path, flags);
}

int close(int fd)
{
    struct device *device = device_of(fd);
    if (device && fd != 1) {
        report("closed", device->name);
        device->name[0] = 0;
    }
    return system_close(fd);
}
