/* Loaded into a program by LD_PRELOAD, refuses one of its requests for memory: that of the number in REFUSE, counted from 1.
 * How many it made is written into the file that ASKED names. It stands on the GNU C library. */
#include <errno.h>
#include <stddef.h>
#include <stdio.h>
#include <stdlib.h>
#include <unistd.h>
#include <fcntl.h>

void *__libc_malloc(size_t);
void *__libc_calloc(size_t, size_t);
void *__libc_realloc(void *, size_t);
void *__libc_memalign(size_t, size_t);
static long asked, refused;

static int refuses(void)
{
	if (++asked != refused) return 0;
	errno = ENOMEM;
	return 1;
}

__attribute__((constructor)) static void begin(void)
{
	const char *number = getenv("REFUSE");
	refused = number ? atol(number) : 0;
	asked = 0;
}

__attribute__((destructor)) static void end(void)
{
	const char *name = getenv("ASKED");
	char line[32];
	int file = name ? open(name, O_WRONLY | O_CREAT | O_TRUNC, 0666) : -1;
	if (file < 0) return;
	int length = snprintf(line, sizeof line, "%ld\n", asked);
	if (write(file, line, length) != length) _exit(99);
	close(file);
}

void *malloc(size_t n) { return refuses() ? NULL : __libc_malloc(n); }
void *calloc(size_t m, size_t n) { return refuses() ? NULL : __libc_calloc(m, n); }
void *realloc(void *p, size_t n) { return refuses() ? NULL : __libc_realloc(p, n); }
void *memalign(size_t a, size_t n) { return refuses() ? NULL : __libc_memalign(a, n); }
void *aligned_alloc(size_t a, size_t n) { return refuses() ? NULL : __libc_memalign(a, n); }
int posix_memalign(void **p, size_t a, size_t n)
{
	if (refuses()) return ENOMEM;
	*p = __libc_memalign(a, n);
	return *p ? 0 : ENOMEM;
}
