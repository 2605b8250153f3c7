/* A clock of the system that shows CLOCK_MILLIS milliseconds since 1970, or fails where that is `fails`: for `tests/local`, which puts
   it before the C library by LD_PRELOAD. It needs no header, so that it can be made without those of the C library. */

struct time {
	long seconds;
	long nanoseconds;
};

char *getenv(const char *name);
long atol(const char *text);

int clock_gettime(int clock, struct time *now)
{
	const char *shown = getenv("CLOCK_MILLIS");
	long millis;

	(void)clock;
	if (!shown || *shown == 'f')
		return -1;
	millis = atol(shown);
	now->seconds = millis / 1000;
	now->nanoseconds = millis % 1000 * 1000000;
	if (now->nanoseconds < 0) {
		now->seconds -= 1;
		now->nanoseconds += 1000000000;
	}
	return 0;
}
