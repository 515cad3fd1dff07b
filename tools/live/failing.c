/* Loaded before the C library: the FAIL_AT-th allocation of the process finds no memory. */
#define _GNU_SOURCE
#include <dlfcn.h>
#include <errno.h>
#include <stdlib.h>

static long made;

static int is_missing(void)
{
	const char *at = getenv("FAIL_AT");

	return __atomic_add_fetch(&made, 1, __ATOMIC_SEQ_CST) == (at ? atol(at) : -1);
}

void *malloc(size_t size)
{
	static void *(*real)(size_t);

	if (!real)
		real = (void *(*)(size_t))dlsym(RTLD_NEXT, "malloc");
	if (!is_missing())
		return real(size);
	errno = ENOMEM;
	return NULL;
}

void *realloc(void *old, size_t size)
{
	static void *(*real)(void *, size_t);

	if (!real)
		real = (void *(*)(void *, size_t))dlsym(RTLD_NEXT, "realloc");
	if (!is_missing())
		return real(old, size);
	errno = ENOMEM;
	return NULL;
}
