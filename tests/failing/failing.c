/* Preloaded before the C library, this makes a program's reads and writes fail, stop short or be
 * interrupted, as the environment says:
 *
 *   FAILING_FILE     the last part of a path; reads of that file alone are touched
 *   FAILING_AFTER    after so many bytes a read of it fails
 *   FAILING_WRITES   after so many bytes a write to standard output fails
 *   FAILING_SYNC     bringing a file to the disk fails
 *   FAILING_ERRNO    the error's number
 *   FAILING_CHUNK    no call moves more than so many bytes
 *   FAILING_SIGNALS  so many calls in a row are interrupted before each one that isn't
 *   FAILING_OPENED   a file to which the path of each opened file is added, a line each
 */
#define _GNU_SOURCE
#include <errno.h>
#include <fcntl.h>
#include <stdarg.h>
#include <stdio.h>
#include <stdlib.h>
#include <string.h>
#include <sys/syscall.h>
#include <unistd.h>

static long setting(const char *name, long otherwise)
{
	const char *text = getenv(name);
	return text ? atol(text) : otherwise;
}

static int fails(void)
{
	errno = (int)setting("FAILING_ERRNO", EIO);
	return -1;
}

/* Whether this call is one that a signal interrupts. */
static int is_interrupted(void)
{
	static long in_a_row = 0;
	if (in_a_row < setting("FAILING_SIGNALS", 0)) {
		in_a_row++;
		errno = EINTR;
		return 1;
	}
	in_a_row = 0;
	return 0;
}

/* Whether fd is open on the file that reads fail of. */
static int is_chosen(int fd)
{
	char link[64], path[4096];
	const char *name = getenv("FAILING_FILE");
	snprintf(link, sizeof link, "/proc/self/fd/%d", fd);
	ssize_t n = readlink(link, path, sizeof path - 1);
	if (!name || n < 0)
		return 0;
	path[n] = 0;
	const char *slash = strrchr(path, '/');
	return slash && strcmp(slash + 1, name) == 0;
}

/* How many of n bytes a call may move that is allowed `left` bytes. */
static size_t allowed(size_t n, long left)
{
	size_t most = (size_t)setting("FAILING_CHUNK", 1L << 30);
	if (most > (size_t)left)
		most = (size_t)left;
	return n < most ? n : most;
}

ssize_t read(int fd, void *buf, size_t n)
{
	static long done = 0;
	if (!is_chosen(fd))
		return syscall(SYS_read, fd, buf, n);
	if (is_interrupted())
		return -1;
	long left = setting("FAILING_AFTER", 1L << 40) - done;
	if (left <= 0)
		return fails();
	ssize_t got = syscall(SYS_read, fd, buf, allowed(n, left));
	if (got > 0)
		done += got;
	return got;
}

ssize_t write(int fd, const void *buf, size_t n)
{
	static long done = 0;
	if (fd != STDOUT_FILENO)
		return syscall(SYS_write, fd, buf, n);
	if (is_interrupted())
		return -1;
	long left = setting("FAILING_WRITES", 1L << 40) - done;
	if (left <= 0)
		return fails();
	ssize_t put = syscall(SYS_write, fd, buf, allowed(n, left));
	if (put > 0)
		done += put;
	return put;
}

int fsync(int fd)
{
	if (setting("FAILING_SYNC", 0))
		return fails();
	return (int)syscall(SYS_fsync, fd);
}

static void note(const char *path)
{
	const char *list = getenv("FAILING_OPENED");
	if (!list)
		return;
	int fd = (int)syscall(SYS_openat, AT_FDCWD, list, O_WRONLY | O_CREAT | O_APPEND, 0666);
	syscall(SYS_write, fd, path, strlen(path));
	syscall(SYS_write, fd, "\n", 1L);
	syscall(SYS_close, fd);
}

int open(const char *path, int flags, ...)
{
	va_list rest;
	va_start(rest, flags);
	int mode = flags & O_CREAT ? va_arg(rest, int) : 0;
	va_end(rest);
	note(path);
	return (int)syscall(SYS_openat, AT_FDCWD, path, flags, mode);
}
