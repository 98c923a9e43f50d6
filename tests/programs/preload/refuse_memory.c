// Refuses one growth of memory: the one whose number, counted from 1, REFUSED_GROWTH gives. For LD_PRELOAD.
// getenv, which reads the number, takes no memory. The growths of all threads are counted together.
// At the end it writes how many there were into the file that COUNTED_GROWTHS names, whether the program ends by _exit or
// returns from main.
#define _GNU_SOURCE
#include <dlfcn.h>
#include <errno.h>
#include <fcntl.h>
#include <stddef.h>
#include <stdio.h>
#include <stdlib.h>
#include <sys/syscall.h>
#include <unistd.h>

static _Atomic long growths;
static long refused = -1;

static int is_refused(void)
{
	if (refused < 0) {
		const char *number = getenv("REFUSED_GROWTH");
		refused = number ? atol(number) : 0;
	}
	if (++growths != refused)
		return 0;
	errno = ENOMEM;
	return 1;
}

void *malloc(size_t size)
{
	static void *(*next)(size_t);
	if (!next)
		next = dlsym(RTLD_NEXT, "malloc");
	return is_refused() ? NULL : next(size);
}

void *realloc(void *old, size_t size)
{
	static void *(*next)(void *, size_t);
	if (!next)
		next = dlsym(RTLD_NEXT, "realloc");
	return is_refused() ? NULL : next(old, size);
}

void *aligned_alloc(size_t alignment, size_t size)
{
	static void *(*next)(size_t, size_t);
	if (!next)
		next = dlsym(RTLD_NEXT, "aligned_alloc");
	return is_refused() ? NULL : next(alignment, size);
}

__attribute__((destructor)) static void write_count(void)
{
	const char *name = getenv("COUNTED_GROWTHS");
	int count = name ? open(name, O_WRONLY | O_CREAT | O_TRUNC, 0600) : -1;
	if (count >= 0) {
		dprintf(count, "%ld\n", growths);
		close(count);
	}
}

// A program that ends by this call runs nothing that is left for the end.
void _exit(int status)
{
	write_count();
	for (;;)
		syscall(SYS_exit_group, status);
}
