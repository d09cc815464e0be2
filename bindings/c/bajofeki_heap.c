/* What the library's memory comes from: malloc, realloc and free. The three functions are those that a Rattle archive asks for. */
#include <stdbool.h>
#include <stddef.h>
#include <stdlib.h>

struct taken {
    bool is_taken;
    void *at;
};

/* Where no memory was taken: a pointer that is not null. */
static char none;

static struct taken taken(void *at) {
    struct taken result = {at != NULL, at != NULL ? at : &none};
    return result;
}

/* What malloc doesn't align is refused; the library asks for none of that. */
struct taken rattle_alloc(size_t size, size_t align) {
    return taken(align > _Alignof(max_align_t) ? NULL : malloc(size > 0 ? size : align));
}

struct taken rattle_realloc(void *old, size_t old_size, size_t size, size_t align) {
    (void)old_size;
    return taken(realloc(old, size > 0 ? size : align));
}

void rattle_dealloc(void *at) {
    free(at);
}
