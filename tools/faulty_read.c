/* Loaded before the C library (LD_PRELOAD), it lets reads of standard input fail as FAULTY_READS says, for tools/test_io. The words of that
 * variable, in turn: a number lets as many bytes through, in one read at most; f fails once (EIO), i is interrupted once (EINTR); a star
 * behind the last letter fails for ever. After the last word reads are C's own. */
#define _GNU_SOURCE
#include <dlfcn.h>
#include <errno.h>
#include <stdlib.h>
#include <sys/types.h>

static ssize_t failed(int why) {
    errno = why;
    return -1;
}

ssize_t read(int fd, void *buffer, size_t count) {
    static ssize_t (*plain)(int, void *, size_t);
    static const char *plan;
    static size_t left;
    if (!plain) {
        plain = (ssize_t (*)(int, void *, size_t))dlsym(RTLD_NEXT, "read");
        plan = getenv("FAULTY_READS");
    }
    if (fd != 0 || !plan) return plain(fd, buffer, count);
    if (left == 0) {
        while (*plan == ' ') plan++;
        if (*plan >= '0' && *plan <= '9') left = strtoul(plan, (char **)&plan, 10);
    }
    if (left) {
        ssize_t got = plain(fd, buffer, count < left ? count : left);
        if (got > 0) left -= (size_t)got;
        return got;
    }
    if (*plan == 'f' || *plan == 'i') {
        int why = *plan == 'f' ? EIO : EINTR;
        if (plan[1] != '*') plan++;
        return failed(why);
    }
    return plain(fd, buffer, count);
}
