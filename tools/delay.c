/* Makes each wait for the disk take longer: fsync and fdatasync nap for DELAY microseconds behind it. For LD_PRELOAD. */
#define _GNU_SOURCE
#include <stdlib.h>
#include <sys/syscall.h>
#include <time.h>
#include <unistd.h>

static int behind(int result) {
    const char *told = getenv("DELAY");
    long micros = told ? atol(told) : 0;
    struct timespec nap = {micros / 1000000, micros % 1000000 * 1000};
    nanosleep(&nap, NULL);
    return result;
}

int fsync(int file) { return behind(syscall(SYS_fsync, file)); }

int fdatasync(int file) { return behind(syscall(SYS_fdatasync, file)); }
