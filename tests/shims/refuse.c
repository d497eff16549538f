/* Refuses one allocation of a program: the Nth, N being REFUSE in its environment. It is loaded
   before the C library (LD_PRELOAD), and writes `refused` on standard error if it refuses. */
#include <stdlib.h>
#include <unistd.h>

extern void *__libc_malloc(size_t size);
extern void *__libc_realloc(void *block, size_t size);

static long left;

__attribute__((constructor)) static void begin(void)
{
    const char *number = getenv("REFUSE");
    left = number ? atol(number) : 0;
}

static int refused(void)
{
    static const char told[] = "refused\n";
    if (left == 0 || --left > 0)
        return 0;
    return write(2, told, sizeof told - 1) > 0;
}

void *malloc(size_t size)
{
    return refused() ? NULL : __libc_malloc(size);
}

void *realloc(void *block, size_t size)
{
    return refused() ? NULL : __libc_realloc(block, size);
}
