/* The same text by libfdt, which others wrote: what judge.py says of a good tree has to be what this says.

       walk FILE..                 the text of each tree, or `libfdt: ` and its error
       walk                        a stream on standard input: for each tree 4 bytes of length, the lowest first, and
                                   the tree. On standard output, for each: 4 bytes of libfdt's error, negated (0: none),
                                   4 bytes of length, and the text
       walk --nop IN OUT PATH [PROPERTY]
                                   has libfdt overwrite a node, or a property, with NOPs

   A tree is opened by fdt_check_full, the strictest check that libfdt has. On some damaged trees libfdt 1.6.1 crashes
   or goes round for ever (README.md says on which): such a tree has the error 254 or 255 here, and is not opened. */
#include <libfdt.h>
#include <setjmp.h>
#include <signal.h>
#include <stdarg.h>
#include <stdio.h>
#include <stdlib.h>
#include <string.h>
#include <sys/time.h>

#define CRASHED 254
#define ENDLESS 255

static char *text;
static size_t used, room;

static void put(const void *bytes, size_t n)
{
	while (room - used < n) {
		room = room ? room * 2 : 65536;
		text = realloc(text, room);
		if (!text)
			abort();
	}
	memcpy(text + used, bytes, n);
	used += n;
}

static void print(const char *format, ...)
{
	char line[128];
	va_list args;
	va_start(args, format);
	put(line, vsnprintf(line, sizeof line, format, args));
	va_end(args);
}

/* Up to (0, 0). fdt_num_mem_rsv is not asked: it stops at a size of 0 alone. */
static void reservations(const void *fdt)
{
	uint64_t address, size;
	for (int i = 0; fdt_get_mem_rsv(fdt, i, &address, &size) == 0 && (address || size); i++)
		print("rsv %016llx %016llx\n", (unsigned long long)address, (unsigned long long)size);
}

static void properties(const void *fdt, int node)
{
	int at;
	fdt_for_each_property_offset(at, fdt, node) {
		const char *name;
		int n;
		const unsigned char *value = fdt_getprop_by_offset(fdt, at, &name, &n);
		if (!value)
			continue;
		print("prop ");
		put(name, strlen(name));
		print(" ");
		for (int i = 0; i < n; i++)
			print("%02x", value[i]);
		print("\n");
	}
}

static int walk_it(const void *fdt, size_t n)
{
	used = 0;
	int bad = fdt_check_full(fdt, n);
	if (bad)
		return -bad;
	reservations(fdt);
	int depth = 0;
	int node = fdt_next_node(fdt, -1, &depth);
	/* The depth starts at 0 and the root's begin token makes it 1. */
	while (node >= 0 && depth >= 1) {
		int len;
		const char *name = fdt_get_name(fdt, node, &len);
		print("node %d ", depth - 1);
		if (name)
			put(name, len);
		print("\n");
		properties(fdt, node);
		node = fdt_next_node(fdt, node, &depth);
	}
	return 0;
}

static sigjmp_buf out;

static void stop(int signal)
{
	siglongjmp(out, signal == SIGALRM ? ENDLESS : CRASHED);
}

static int walk(const void *fdt, size_t n)
{
	struct itimerval soon = {{0, 0}, {0, 300000}}, never = {{0, 0}, {0, 0}};
	int bad = sigsetjmp(out, 1);
	if (bad == 0) {
		setitimer(ITIMER_REAL, &soon, NULL);
		bad = walk_it(fdt, n);
	}
	setitimer(ITIMER_REAL, &never, NULL);
	return bad;
}

static const char *said(int bad)
{
	return bad == CRASHED ? "it crashed" : bad == ENDLESS ? "it did not end" : fdt_strerror(-bad);
}

static void *copy(FILE *from, size_t n)
{
	/* libfdt asks for a tree at a multiple of 8, which malloc gives. Nothing may be read past its end: a block of
	   just so many bytes lets a sanitiser see it. */
	unsigned char *bytes = malloc(n ? n : 1);
	if (!bytes)
		abort();
	if (fread(bytes, 1, n, from) != n) {
		free(bytes);
		return NULL;
	}
	return bytes;
}

static void *load(const char *path, size_t *n)
{
	FILE *file = fopen(path, "rb");
	if (!file) {
		perror(path);
		exit(2);
	}
	fseek(file, 0, SEEK_END);
	*n = ftell(file);
	rewind(file);
	void *bytes = copy(file, *n);
	fclose(file);
	return bytes;
}

static void word(unsigned long x)
{
	for (int i = 0; i < 4; i++)
		putchar((x >> 8 * i) & 255);
}

static void stream(void)
{
	unsigned char head[4];
	while (fread(head, 1, 4, stdin) == 4) {
		size_t n = head[0] | head[1] << 8 | head[2] << 16 | (size_t)head[3] << 24;
		void *fdt = copy(stdin, n);
		if (!fdt)
			exit(2);
		int bad = walk(fdt, n);
		word(bad);
		word(bad ? 0 : used);
		if (!bad)
			fwrite(text, 1, used, stdout);
		free(fdt);
	}
}

static int nop(const char *in, const char *out, const char *path, const char *property)
{
	size_t n;
	void *fdt = load(in, &n);
	int node = fdt_path_offset(fdt, path);
	int bad = property ? fdt_nop_property(fdt, node, property) : fdt_nop_node(fdt, node);
	if (bad) {
		fprintf(stderr, "walk: %s %s: %s\n", path, property ? property : "", fdt_strerror(bad));
		return 1;
	}
	FILE *file = fopen(out, "wb");
	if (!file || fwrite(fdt, 1, n, file) != n || fclose(file)) {
		perror(out);
		return 1;
	}
	return 0;
}

int main(int count, char **words)
{
	if (count >= 5 && !strcmp(words[1], "--nop"))
		return nop(words[2], words[3], words[4], words[5]);
	signal(SIGALRM, stop);
	signal(SIGSEGV, stop);
	signal(SIGBUS, stop);
	if (count == 1)
		stream();
	for (int i = 1; i < count; i++) {
		size_t n;
		void *fdt = load(words[i], &n);
		int bad = walk(fdt, n);
		if (bad)
			printf("libfdt: %s\n", said(bad));
		else
			fwrite(text, 1, used, stdout);
		free(fdt);
	}
	return 0;
}
