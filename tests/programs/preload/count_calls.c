// Counts the calls with which a thread waits, wakes and gives its processor away, and holds one thread back. For LD_PRELOAD.
// Threads are numbered from 1 as they are started. HELD_THREAD does not begin before the thread FIRST_THREAD has slept once,
// or has ended. As each thread ends, it appends a line to the file CALLS: its number, how often it yielded before it first
// slept, how often it slept, how often it woke, and its other calls of the system. The program's own thread, 0, does so at
// each call of the system.
#define _GNU_SOURCE
#include <dlfcn.h>
#include <linux/futex.h>
#include <pthread.h>
#include <stdarg.h>
#include <stdio.h>
#include <stdlib.h>
#include <sys/syscall.h>
#include <unistd.h>

enum { THREADS = 256 };

struct start {
	void *(*run)(void *);
	void *with;
	long number;
};

static _Atomic long starts;
static _Atomic int has_slept[THREADS], has_ended[THREADS];
static _Thread_local long own, yields, sleeps, wakes, others;

static long number(const char *name)
{
	const char *text = getenv(name);
	return text ? atol(text) : 0;
}

static void write_calls(void)
{
	FILE *calls = fopen(getenv("CALLS"), "a");

	if (calls) {
		fprintf(calls, "%ld %ld %ld %ld %ld\n", own, yields, sleeps, wakes, others);
		fclose(calls);
	}
}

long syscall(long call, ...)
{
	static long (*next)(long, ...);
	long with[6];
	va_list rest;

	if (!next)
		next = (long (*)(long, ...))dlsym(RTLD_NEXT, "syscall");
	va_start(rest, call);
	for (int i = 0; i < 6; i++)
		with[i] = va_arg(rest, long);
	va_end(rest);
	long kind = with[1] & FUTEX_CMD_MASK;
	if (call == SYS_futex && (kind == FUTEX_WAIT || kind == FUTEX_WAIT_BITSET)) {
		sleeps++;
		has_slept[own] = 1;
	} else if (call == SYS_futex && (kind == FUTEX_WAKE || kind == FUTEX_WAKE_BITSET)) {
		wakes++;
	} else {
		others++;
	}
	if (own == 0)
		write_calls();
	return next(call, with[0], with[1], with[2], with[3], with[4], with[5]);
}

int sched_yield(void)
{
	static int (*next)(void);

	if (!next)
		next = (int (*)(void))dlsym(RTLD_NEXT, "sched_yield");
	if (!sleeps)
		yields++;
	return next();
}

static void *run_counted(void *it)
{
	struct start start = *(struct start *)it;
	long first = number("FIRST_THREAD");

	free(it);
	own = start.number;
	while (own == number("HELD_THREAD") && !has_slept[first] && !has_ended[first])
		usleep(1000);
	void *answer = start.run(start.with);
	write_calls();
	has_ended[own] = 1;
	return answer;
}

int pthread_create(pthread_t *thread, const pthread_attr_t *attr, void *(*run)(void *), void *with)
{
	static int (*next)(pthread_t *, const pthread_attr_t *, void *(*)(void *), void *);
	struct start *start = malloc(sizeof *start);

	if (!next)
		next = (int (*)(pthread_t *, const pthread_attr_t *, void *(*)(void *), void *))dlsym(RTLD_NEXT, "pthread_create");
	start->run = run;
	start->with = with;
	start->number = ++starts;
	return next(thread, attr, run_counted, start);
}
