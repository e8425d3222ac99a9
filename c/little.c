/* A program linked with this file and -Wl,--wrap=malloc,--wrap=realloc gets no block of more than a mebibyte. */
#include <stddef.h>

void *__real_malloc(size_t);
void *__wrap_malloc(size_t);
void *__real_realloc(void *, size_t);
void *__wrap_realloc(void *, size_t);

enum { MOST = 1 << 20 };

void *__wrap_malloc(size_t size)
{
    return size > MOST ? NULL : __real_malloc(size);
}

void *__wrap_realloc(void *block, size_t size)
{
    return size > MOST ? NULL : __real_realloc(block, size);
}
