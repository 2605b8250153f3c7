/* A heap that refuses an allocation: for `bench/memory`, which puts it before the C library's by LD_PRELOAD. It counts the calls of
   `malloc` and `realloc` that the program itself makes, not those of the C library. The one of the number REFUSE_NTH, counted from 1, is
   refused, and if REFUSE_ON is set all behind it are too. To the descriptor REFUSE_TOLD it writes a line when it refuses the first one,
   one for each call behind that which is over a connection, or on a file whose path begins with REFUSE_ROOT, and at the end how many
   allocations it counted. It needs no header, so that it can be made without those of the C library. */

#define PROGRAM_HEADERS 3 /* of the auxiliary vector */
#define HEADER_COUNT 5
#define LOADED 1 /* kinds of program headers */
#define HEADERS 6
#define CONNECT 42 /* calls of the system */
#define SENDTO 44
#define SENDMSG 46
#define OPENAT 257
#define MKDIRAT 258
#define RENAMEAT 264
#define STATX 332
#define HERE (-100L) /* the folder from which a path goes that begins with no slash */
#define MAKES 0x400040 /* the flags of files that are made */

struct header {
	unsigned kind;
	unsigned flags;
	unsigned long offset;
	unsigned long address;
	unsigned long physical;
	unsigned long size_in_file;
	unsigned long size;
	unsigned long alignment;
};

char *getenv(const char *name);
long atol(const char *text);
unsigned long getauxval(unsigned long kind);
long write(int file, const void *bytes, unsigned long count);
long syscall(long number, ...);
void *__libc_malloc(unsigned long size);
void *__libc_realloc(void *block, unsigned long size);

static unsigned long first, last; /* the addresses between which the program stands */
static long nth, counted;
static int is_on, told, has_refused;
static const char *root;

static void tell(const char *what, long number)
{
	char line[40];
	char digits[20];
	int length = 0, count = 0;

	if (told < 0)
		return;
	while (what[length]) {
		line[length] = what[length];
		length++;
	}
	do {
		digits[count++] = '0' + number % 10;
		number /= 10;
	} while (number);
	while (count)
		line[length++] = digits[--count];
	line[length++] = '\n';
	write(told, line, length);
}

static long number_in(const char *name, long otherwise)
{
	const char *text = getenv(name);

	return text ? atol(text) : otherwise;
}

__attribute__((constructor)) static void begin(void)
{
	const struct header *headers = (const struct header *)getauxval(PROGRAM_HEADERS);
	unsigned long count = getauxval(HEADER_COUNT), base = 0, end = 0, i;

	for (i = 0; i < count; i++) {
		if (headers[i].kind == HEADERS)
			base = (unsigned long)headers - headers[i].address;
		if (headers[i].kind == LOADED && end < headers[i].address + headers[i].size)
			end = headers[i].address + headers[i].size;
	}
	nth = number_in("REFUSE_NTH", 0);
	is_on = number_in("REFUSE_ON", 0) != 0;
	told = (int)number_in("REFUSE_TOLD", -1);
	root = getenv("REFUSE_ROOT");
	first = base;
	last = base + end;
}

__attribute__((destructor)) static void end(void)
{
	tell("counted ", counted);
}

/* Whether the call that returns to this address is to be refused. */
static int is_refused(const void *address)
{
	unsigned long place = (unsigned long)address;

	if (place < first || place >= last)
		return 0;
	counted++;
	if (counted == nth) {
		has_refused = 1;
		tell("refused ", counted);
	}
	return nth && (counted == nth || (is_on && counted > nth));
}

void *malloc(unsigned long size)
{
	return is_refused(__builtin_return_address(0)) ? 0 : __libc_malloc(size);
}

void *realloc(void *block, unsigned long size)
{
	return is_refused(__builtin_return_address(0)) ? 0 : __libc_realloc(block, size);
}

static int is_below_root(const char *path)
{
	long i;

	for (i = 0; root && root[i]; i++)
		if (path[i] != root[i])
			return 0;
	return root != 0;
}

/* Tells of a call behind the refusal. One without a path is over a connection. */
static void note(const char *what, const char *path)
{
	if (has_refused && (!path || is_below_root(path)))
		tell(what, counted);
}

int open(const char *path, int flags, ...)
{
	unsigned mode = 0;
	__builtin_va_list rest;

	__builtin_va_start(rest, flags);
	if (flags & MAKES)
		mode = __builtin_va_arg(rest, unsigned);
	__builtin_va_end(rest);
	note("behind open ", path);
	return (int)syscall(OPENAT, HERE, path, (long)flags, (long)mode);
}

int mkdir(const char *path, unsigned mode)
{
	note("behind mkdir ", path);
	return (int)syscall(MKDIRAT, HERE, path, (long)mode);
}

int rename(const char *from, const char *to)
{
	note("behind rename ", to);
	return (int)syscall(RENAMEAT, HERE, from, HERE, to);
}

int statx(int folder, const char *path, int flags, unsigned mask, void *found)
{
	note("behind statx ", path);
	return (int)syscall(STATX, (long)folder, path, (long)flags, (long)mask, found);
}

int connect(int file, const void *address, unsigned length)
{
	note("behind connect ", 0);
	return (int)syscall(CONNECT, (long)file, address, (long)length);
}

long send(int file, const void *bytes, unsigned long count, int flags)
{
	note("behind send ", 0);
	return syscall(SENDTO, (long)file, bytes, count, (long)flags, 0L, 0L);
}

long sendmsg(int file, const void *message, int flags)
{
	note("behind sendmsg ", 0);
	return syscall(SENDMSG, (long)file, message, (long)flags);
}
