/* In the place of malloc and realloc (link with --wrap): the request number FAIL_AT fails. At the end it writes how many
 * requests there were. */
#include <stdio.h>
#include <stdlib.h>

void *__real_malloc(size_t size);
void *__real_realloc(void *old, size_t size);

static long requests;

static int fails(void)
{
    const char *fail_at = getenv("FAIL_AT");
    requests++;
    return fail_at != NULL && requests == atol(fail_at);
}

void *__wrap_malloc(size_t size)
{
    return fails() ? NULL : __real_malloc(size);
}

void *__wrap_realloc(void *old, size_t size)
{
    return fails() ? NULL : __real_realloc(old, size);
}

__attribute__((destructor)) static void tell(void)
{
    fprintf(stderr, "requests %ld\n", requests);
}
