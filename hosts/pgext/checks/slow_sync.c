/* For LD_PRELOAD: a disk that takes six milliseconds for each sync, and a file, SYNCS, with a byte for each. */
#define _GNU_SOURCE
#include <dlfcn.h>
#include <fcntl.h>
#include <stdlib.h>
#include <unistd.h>

static int
sync_slowly(const char *name, int file)
{
	int			(*sync) (int) = (int (*) (int)) dlsym(RTLD_NEXT, name);
	int			counted = open(getenv("SYNCS"), O_WRONLY | O_CREAT | O_APPEND, 0666);

	if (counted < 0 || write(counted, ".", 1) != 1)
		abort();
	close(counted);
	usleep(6000);
	return sync(file);
}

int
fdatasync(int file)
{
	return sync_slowly("fdatasync", file);
}

int
fsync(int file)
{
	return sync_slowly("fsync", file);
}
