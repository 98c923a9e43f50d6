// Refuses the start of one thread: the one whose number, counted from 1, REFUSED_THREAD gives. For LD_PRELOAD.
#define _GNU_SOURCE
#include <dlfcn.h>
#include <errno.h>
#include <pthread.h>
#include <stdlib.h>

static _Atomic long starts;

int pthread_create(pthread_t *thread, const pthread_attr_t *attr, void *(*run)(void *), void *with)
{
	static int (*next)(pthread_t *, const pthread_attr_t *, void *(*)(void *), void *);
	const char *number = getenv("REFUSED_THREAD");

	if (!next)
		next = dlsym(RTLD_NEXT, "pthread_create");
	if (number && ++starts == atol(number))
		return EAGAIN;
	return next(thread, attr, run, with);
}
