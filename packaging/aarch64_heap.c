/*
 * The heap that the library's code asks for, over malloc, realloc and free. The kit has these lines for x86-64 alone,
 * and its library for that processor has the kit's own.
 *
 * A size of 0 becomes the alignment, so that a null pointer always means that there was no memory. Alignments are 16 at
 * most, which malloc keeps.
 */
typedef __SIZE_TYPE__ size_t;

void *malloc(size_t size);
void *realloc(void *block, size_t size);
void free(void *block);

/* A block, or no block: then `block` is some address, and not null. */
struct tried {
    _Bool is_ok;
    void *block;
};

static char nothing[16];

static struct tried tried(void *block) {
    struct tried made = {block != 0, block ? block : nothing};
    return made;
}

struct tried rattle_alloc(size_t size, size_t alignment) {
    return tried(malloc(size ? size : alignment));
}

/* `kept`, the size of the part that stays as it was, is malloc's to know. */
struct tried rattle_realloc(void *block, size_t kept, size_t size, size_t alignment) {
    (void)kept;
    return tried(realloc(block, size ? size : alignment));
}

void rattle_dealloc(void *block) {
    free(block);
}
