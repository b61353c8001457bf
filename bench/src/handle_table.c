/* A handle table as a program in C may have one instead of a zone: blocks found by handle, in one
   buffer, where they slide. It has no fixed blocks, goes by its own byte order and believes every
   byte and every argument. For the price of the check: a call here reads nothing that it does not need. */
#include <stdint.h>
#include <string.h>

enum { HEADER = 8, NONE = UINT32_MAX };

typedef struct {
    unsigned char *bytes;
    uint32_t length;
    uint32_t end;       /* of the last block */
    uint32_t *masters;  /* a block's first data byte; of a free handle the next free one */
    uint32_t free_head; /* a free handle, NONE for none */
} handle_table;

typedef struct {
    uint32_t size;
    uint32_t handle; /* NONE for a free block */
} header;

static header header_at(const handle_table *t, uint32_t at) {
    header h;
    memcpy(&h, t->bytes + at, HEADER);
    return h;
}

static void put_header(handle_table *t, uint32_t at, header h) { memcpy(t->bytes + at, &h, HEADER); }

/* Live blocks go to the start in old order, masters follow. */
void handle_table_compact(handle_table *t) {
    uint32_t to = 0, at = 0;
    while (at < t->end) {
        header h = header_at(t, at);
        if (h.handle != NONE) {
            if (to < at) {
                memmove(t->bytes + to, t->bytes + at, h.size);
                t->masters[h.handle] = to + HEADER;
            }
            to += h.size;
        }
        at += h.size;
    }
    t->end = to;
}

/* Behind the last block, after compacting where there is no room; NONE where there is none then. */
uint32_t handle_table_allocate(handle_table *t, uint32_t c) {
    uint32_t size = HEADER + ((c + 3) & ~(uint32_t)3), handle = t->free_head;
    if (t->length - t->end < size) handle_table_compact(t);
    if (t->length - t->end < size || handle == NONE) return NONE;
    t->free_head = t->masters[handle];
    put_header(t, t->end, (header){size, handle});
    t->masters[handle] = t->end + HEADER;
    memset(t->bytes + t->end + HEADER, 0, size - HEADER);
    t->end += size;
    return handle;
}

void handle_table_free(handle_table *t, uint32_t handle) {
    uint32_t at = t->masters[handle] - HEADER;
    put_header(t, at, (header){header_at(t, at).size, NONE});
    t->masters[handle] = t->free_head;
    t->free_head = handle;
}

void handle_table_read(const handle_table *t, uint32_t handle, uint32_t count, unsigned char *into) {
    memcpy(into, t->bytes + t->masters[handle], count);
}

void handle_table_write(handle_table *t, uint32_t handle, uint32_t count, const unsigned char *from) {
    memcpy(t->bytes + t->masters[handle], from, count);
}
