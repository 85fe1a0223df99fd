/* Refuses allocations of the program that it is preloaded into: the one whose number, from 1, stands in REFUSE, and with
 * REFUSE_REST also every later one. At the first that is refused the file that REFUSED names is made. */
#include <fcntl.h>
#include <stddef.h>
#include <stdlib.h>
#include <unistd.h>

void *__libc_malloc(size_t size);
void *__libc_realloc(void *old, size_t size);

static unsigned long count;

static int is_refused(void)
{
    const char *number = getenv("REFUSE");
    unsigned long wanted = number ? strtoul(number, NULL, 10) : 0;
    count++;
    if (wanted == 0 || count < wanted || (count > wanted && !getenv("REFUSE_REST")))
        return 0;
    if (count == wanted && getenv("REFUSED"))
        close(open(getenv("REFUSED"), O_CREAT | O_WRONLY, 0600));
    return 1;
}

void *malloc(size_t size)
{
    return is_refused() ? NULL : __libc_malloc(size);
}

void *realloc(void *old, size_t size)
{
    return is_refused() ? NULL : __libc_realloc(old, size);
}
