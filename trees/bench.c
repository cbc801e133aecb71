/* Times the opening of a tree: our fdt::open_tree, through crates/tree_bench, beside libfdt's fdt_check_full, on the same
   bytes and in one process.

       tools/build tree_bench
       cc -O3 -o target/trees/bench trees/bench.c target/staticlib/libtree_bench.a -lfdt
       target/trees/bench

   libfdt itself writes the trees. Each round times libfdt and then ours, so that what else the machine does falls on both;
   the table has the medians of the rounds, in microseconds for one opening. */
#include <libfdt.h>
#include <stdio.h>
#include <stdlib.h>
#include <time.h>

/* How Rattle takes a lent slice: where it starts, and how long it is. */
extern unsigned char bench_open(const unsigned char *bytes, size_t n);

#define ROUNDS 301
#define ROOM 1048576

static void check(int bad)
{
	if (bad) {
		fprintf(stderr, "bench: %s\n", fdt_strerror(bad));
		exit(1);
	}
}

/* A node as boards have them: two words of address, a text, a flag. */
static void device(void *fdt, int number)
{
	char name[32];
	fdt32_t reg[4] = {0, cpu_to_fdt32(0x10000 * number), 0, cpu_to_fdt32(0x1000)};
	snprintf(name, sizeof name, "device@%x", 0x10000 * number);
	check(fdt_begin_node(fdt, name));
	check(fdt_property(fdt, "reg", reg, sizeof reg));
	check(fdt_property_string(fdt, "compatible", "some,device"));
	if (number % 2)
		check(fdt_property(fdt, "dma-coherent", NULL, 0));
	check(fdt_property_u32(fdt, "interrupts", number));
}

/* A tree of so many nodes: the root, buses of ten devices, and every third device with a child. */
static size_t make(void *fdt, int nodes)
{
	check(fdt_create(fdt, ROOM));
	check(fdt_add_reservemap_entry(fdt, 0x80000000, 0x10000));
	check(fdt_finish_reservemap(fdt));
	check(fdt_begin_node(fdt, ""));
	check(fdt_property_u32(fdt, "#address-cells", 2));
	check(fdt_property_u32(fdt, "#size-cells", 2));
	check(fdt_property_string(fdt, "model", "a board"));
	int made = 1;
	while (made < nodes) {
		char name[32];
		snprintf(name, sizeof name, "bus@%x", made);
		check(fdt_begin_node(fdt, name));
		check(fdt_property(fdt, "ranges", NULL, 0));
		made++;
		for (int i = 0; i < 10 && made < nodes; i++) {
			device(fdt, made++);
			if (i % 3 == 0 && made < nodes) {
				device(fdt, made++);
				check(fdt_end_node(fdt));
			}
			check(fdt_end_node(fdt));
		}
		check(fdt_end_node(fdt));
	}
	check(fdt_end_node(fdt));
	check(fdt_finish(fdt));
	return fdt_totalsize(fdt);
}

static double now(void)
{
	struct timespec t;
	clock_gettime(CLOCK_MONOTONIC, &t);
	return t.tv_sec * 1e6 + t.tv_nsec / 1e3;
}

static int rising(const void *a, const void *b)
{
	double x = *(const double *)a, y = *(const double *)b;
	return (x > y) - (x < y);
}

static double theirs(const void *fdt, size_t n, int times)
{
	double start = now();
	for (int i = 0; i < times; i++)
		check(fdt_check_full(fdt, n));
	return (now() - start) / times;
}

static double ours(const void *fdt, size_t n, int times)
{
	double start = now();
	for (int i = 0; i < times; i++)
		if (bench_open(fdt, n) != 0) {
			fprintf(stderr, "bench: ours refuses\n");
			exit(1);
		}
	return (now() - start) / times;
}

int main(void)
{
	static const int counts[] = {50, 500, 4000};
	void *fdt = aligned_alloc(64, ROOM);
	printf("nodes   bytes   libfdt us    ours us   libfdt/ours\n");
	for (int k = 0; k < 3; k++) {
		size_t n = make(fdt, counts[k]);
		int times = 20000 / counts[k];
		double a[ROUNDS], b[ROUNDS];
		theirs(fdt, n, times);
		ours(fdt, n, times);
		for (int i = 0; i < ROUNDS; i++) {
			a[i] = theirs(fdt, n, times);
			b[i] = ours(fdt, n, times);
		}
		qsort(a, ROUNDS, sizeof *a, rising);
		qsort(b, ROUNDS, sizeof *b, rising);
		double x = a[ROUNDS / 2], y = b[ROUNDS / 2];
		printf("%5d %7zu %11.2f %10.2f %13.2f\n", counts[k], n, x, y, x / y);
	}
	return 0;
}
