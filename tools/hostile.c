/* Preloaded into a program, it refuses one of its calls, or cuts it short, and says so in a file. In the environment:
   HOSTILE_CALLS  which calls are counted: memory (requests for it), read or write
   HOSTILE_WAY    what becomes of one: refused, short (it moves one byte), or ended (it is refused, and so are all later ones)
   HOSTILE_TURN   which one, counted from 1
   HOSTILE_TOLD   the file that then holds the number of the call's file, one digit; 0 for memory
   Standard error isn't counted, nor are reads and writes of no byte, or of one where one is to be cut short. */
#define _GNU_SOURCE
#include <dlfcn.h>
#include <errno.h>
#include <fcntl.h>
#include <stdlib.h>
#include <string.h>
#include <unistd.h>

static void *(*take)(size_t);
static void *(*retake)(void *, size_t);
static void *(*take_clear)(size_t, size_t);
static ssize_t (*take_in)(int, void *, size_t);
static ssize_t (*put_out)(int, const void *, size_t);
static char calls;
static int cut, ends;
static unsigned long turn, seen;
static const char *told;

__attribute__((constructor)) static void begin(void)
{
	const char *which = getenv("HOSTILE_CALLS"), *way = getenv("HOSTILE_WAY"), *number = getenv("HOSTILE_TURN");
	take = (void *(*)(size_t))dlsym(RTLD_NEXT, "malloc");
	retake = (void *(*)(void *, size_t))dlsym(RTLD_NEXT, "realloc");
	take_clear = (void *(*)(size_t, size_t))dlsym(RTLD_NEXT, "calloc");
	take_in = (ssize_t (*)(int, void *, size_t))dlsym(RTLD_NEXT, "read");
	put_out = (ssize_t (*)(int, const void *, size_t))dlsym(RTLD_NEXT, "write");
	told = getenv("HOSTILE_TOLD");
	if (!which || !way || !number || !told)
		return;
	cut = strcmp(way, "short") == 0;
	ends = strcmp(way, "ended") == 0;
	turn = strtoul(number, NULL, 10);
	calls = which[0];
}

/* Whether this call is the one. */
static int is_it(char kind, int file)
{
	char digit = (char)('0' + file % 10);
	int to;
	if (kind != calls || turn == 0)
		return 0;
	seen++;
	if (ends ? seen < turn : seen != turn)
		return 0;
	to = open(told, O_CREAT | O_WRONLY | O_TRUNC, 0600);
	if (to >= 0) {
		put_out(to, &digit, 1);
		close(to);
	}
	return 1;
}

static int is_refused(void)
{
	if (!is_it('m', 0))
		return 0;
	errno = ENOMEM;
	return 1;
}

void *malloc(size_t size)
{
	if (!take)
		take = (void *(*)(size_t))dlsym(RTLD_NEXT, "malloc");
	return is_refused() ? NULL : take(size);
}

void *realloc(void *old, size_t size)
{
	if (!retake)
		retake = (void *(*)(void *, size_t))dlsym(RTLD_NEXT, "realloc");
	return is_refused() ? NULL : retake(old, size);
}

void *calloc(size_t count, size_t size)
{
	if (!take_clear)
		take_clear = (void *(*)(size_t, size_t))dlsym(RTLD_NEXT, "calloc");
	return is_refused() ? NULL : take_clear(count, size);
}

/* How many bytes of `size` a read or a write may move; 0 where it is refused. */
static size_t moved(char kind, int file, size_t size)
{
	if (file == 2 || size <= (size_t)cut || !is_it(kind, file))
		return size;
	errno = EIO;
	return (size_t)cut;
}

ssize_t read(int file, void *bytes, size_t size)
{
	size_t most = moved('r', file, size);
	return most == 0 && size > 0 ? -1 : take_in(file, bytes, most);
}

ssize_t write(int file, const void *bytes, size_t size)
{
	size_t most = moved('w', file, size);
	return most == 0 && size > 0 ? -1 : put_out(file, bytes, most);
}

ssize_t __write(int file, const void *bytes, size_t size)
{
	return write(file, bytes, size);
}
