/* Memory for libdam, from the C library. The proved code asks for it by these three functions. */
#include <stdbool.h>
#include <stddef.h>
#include <stdlib.h>

/* Whether there was memory, and where. An address that isn't there is 16, since the proved code keeps no null pointer. */
struct tried {
    bool ok;
    void *at;
};

struct tried rattle_alloc(size_t size, size_t align);
struct tried rattle_realloc(void *at, size_t kept, size_t size, size_t align);
void rattle_dealloc(void *at);

static struct tried tried(void *at) {
    return (struct tried){at != NULL, at != NULL ? at : (void *)16};
}

/* Memory from malloc fits every type of C, and no type of the library asks for more. */
static bool is_aligned_by_malloc(size_t align) {
    return align <= _Alignof(max_align_t);
}

struct tried rattle_alloc(size_t size, size_t align) {
    return tried(is_aligned_by_malloc(align) ? malloc(size != 0 ? size : align) : NULL);
}

/* If there is no memory, the old block stays as it was. Of the old block, `kept` bytes are in use; realloc keeps them all. */
struct tried rattle_realloc(void *at, size_t kept, size_t size, size_t align) {
    (void)kept;
    return tried(is_aligned_by_malloc(align) ? realloc(at, size != 0 ? size : align) : NULL);
}

void rattle_dealloc(void *at) {
    free(at);
}
