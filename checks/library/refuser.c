/* A malloc that is put before the C library's: it counts, and refuses one growth of memory. checks/library_agree builds it. */
#include <errno.h>
#include <stddef.h>

void *__libc_malloc(size_t), *__libc_realloc(void *, size_t);
void __libc_free(void *);

/* Which growth from now on is refused, none below 1; whether all behind it are, too; how many blocks there are, and how many growths
   there were. */
long refuser_left, refuser_goes_on, refuser_blocks, refuser_growths;

static int is_refused(void)
{
	__atomic_add_fetch(&refuser_growths, 1, __ATOMIC_SEQ_CST);
	long left = __atomic_sub_fetch(&refuser_left, 1, __ATOMIC_SEQ_CST);
	if (left > 0 || (left < 0 && !refuser_goes_on))
		return 0;
	errno = ENOMEM;
	return 1;
}

static void *counted(void *block)
{
	if (block)
		__atomic_add_fetch(&refuser_blocks, 1, __ATOMIC_SEQ_CST);
	return block;
}

void *malloc(size_t size)
{
	return is_refused() ? NULL : counted(__libc_malloc(size));
}

void *realloc(void *old, size_t size)
{
	if (is_refused())
		return NULL;
	return old ? __libc_realloc(old, size) : counted(__libc_malloc(size));
}

void free(void *block)
{
	if (block)
		__atomic_sub_fetch(&refuser_blocks, 1, __ATOMIC_SEQ_CST);
	__libc_free(block);
}
