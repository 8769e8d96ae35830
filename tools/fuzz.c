/* Gives each input that AFL++ makes to `strips` twice: as it is shipped, with AFL++'s counters, and under AddressSanitizer,
 * with a check in front of each assumption that the compiler may make. A failed check ends the program; so do texts that
 * differ. tools/fuzz renames the main, read and write of both to those below. Run by hand, it reads a job from standard
 * input and prints its text.
 */
#include <stdlib.h>
#include <string.h>
#include <unistd.h>

__AFL_FUZZ_INIT();

int shipped_main(int count, char **words);
int checked_main(int count, char **words);

/* The longest text has 22,944 bytes. */
struct text {
    size_t length;
    unsigned char bytes[32768];
};

static const unsigned char *input;
static size_t left;
static struct text shipped, checked, *text;

/* At most 1,000 bytes at a time, since a pipe gives no more than it has. */
ssize_t strips_read(int file, void *to, size_t room)
{
    size_t count = room < 1000 ? room : 1000;
    if (file != 0)
        abort();
    if (left < count)
        count = left;
    memcpy(to, input, count);
    input += count;
    left -= count;
    return count;
}

ssize_t strips_write(int file, const void *from, size_t count)
{
    if (file != 1 || sizeof text->bytes - text->length < count)
        abort();
    memcpy(text->bytes + text->length, from, count);
    text->length += count;
    return count;
}

static void run(int (*program)(int, char **), const unsigned char *job, size_t length, struct text *into)
{
    input = job;
    left = length;
    text = into;
    text->length = 0;
    char name[] = "strips", *words[] = {name, NULL};
    program(1, words);
}

int main(void)
{
    __AFL_INIT();
    const unsigned char *job = __AFL_FUZZ_TESTCASE_BUF;
    while (__AFL_LOOP(10000)) {
        size_t length = __AFL_FUZZ_TESTCASE_LEN;
        run(shipped_main, job, length, &shipped);
        run(checked_main, job, length, &checked);
        if (shipped.length != checked.length || memcmp(shipped.bytes, checked.bytes, shipped.length) != 0)
            abort();
    }
    return write(1, shipped.bytes, shipped.length) != (ssize_t)shipped.length;
}
