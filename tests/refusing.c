/* Linked with the static library into a shared one, with --wrap=malloc, --wrap=realloc and --wrap=free: refuses one of the
   library's growths of memory, and counts the blocks that it holds. For tests/python_package.py --refused. */
#include <stddef.h>

void *__real_malloc(size_t size);
void *__real_realloc(void *block, size_t size);
void __real_free(void *block);

/* Which growth is refused, counted from 1, 0 for none; how many there were; and how many blocks are held. */
size_t refused_at, growths, held;

static void *grown(void *block, size_t size) {
    void *made = ++growths == refused_at ? NULL : block ? __real_realloc(block, size) : __real_malloc(size);
    held += made && !block;
    return made;
}

void *__wrap_malloc(size_t size) { return grown(NULL, size); }

void *__wrap_realloc(void *block, size_t size) { return grown(block, size); }

void __wrap_free(void *block) {
    held -= block != NULL;
    __real_free(block);
}
