// Lets reads of standard input and writes to standard output and standard error fail, take few bytes, or be interrupted.
// For LD_PRELOAD. FEW_BYTES is how many bytes a call takes at most, and FEW_SAID how many one to standard error does. Of
// the calls from the number on, counted from 1, that FAILED_READ, FAILED_WRITE or FAILED_SAYING gives, FAILED_TIMES in a
// row (1 if it says nothing) have the errno FAILED_ERRNO; where that is 0 they succeed and take nothing.
#define _GNU_SOURCE
#include <dlfcn.h>
#include <errno.h>
#include <stddef.h>
#include <stdlib.h>
#include <unistd.h>

// The standard streams, by their numbers: what says which calls fail, and how many bytes one takes.
static const char *const failed[] = {"FAILED_READ", "FAILED_WRITE", "FAILED_SAYING"};
static const char *const few[] = {"FEW_BYTES", "FEW_BYTES", "FEW_SAID"};
static _Atomic long calls[3];

static long number(const char *name, long otherwise)
{
	const char *text = getenv(name);
	return text ? atol(text) : otherwise;
}

// Whether the next call of a stream fails; then *answer is what it answers. Else it may take at most *count bytes.
static int is_failed(int fd, size_t *count, ssize_t *answer)
{
	long call = ++calls[fd], first = number(failed[fd], 0), most = number(few[fd], 0);

	if (first > 0 && first <= call && call - first < number("FAILED_TIMES", 1)) {
		errno = (int)number("FAILED_ERRNO", 0);
		*answer = errno ? -1 : 0;
		return 1;
	}
	if (most > 0 && *count > (size_t)most)
		*count = (size_t)most;
	return 0;
}

ssize_t read(int fd, void *bytes, size_t count)
{
	static ssize_t (*next)(int, void *, size_t);
	ssize_t answer;

	if (!next)
		next = dlsym(RTLD_NEXT, "read");
	return fd == 0 && is_failed(fd, &count, &answer) ? answer : next(fd, bytes, count);
}

ssize_t write(int fd, const void *bytes, size_t count)
{
	static ssize_t (*next)(int, const void *, size_t);
	ssize_t answer;

	if (!next)
		next = dlsym(RTLD_NEXT, "write");
	return (fd == 1 || fd == 2) && is_failed(fd, &count, &answer) ? answer : next(fd, bytes, count);
}
