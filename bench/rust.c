/* rust.rs for C. */
#include "contender.h"
#include "log.h"

size_t rust_read(const void *src, size_t len, void *codes, size_t room);
size_t rust_write(const void *codes, size_t len, void *dst, size_t room);
size_t rust_place(const void *src, size_t len, size_t k);

size_t walk_in_rust(const struct log *log, size_t k)
{
    return rust_place(log->bytes, log->len, k);
}

const struct contender rust_reader = {.name = "Rust " RUST, .run = rust_read};
const struct contender rust_writer = {.name = "Rust " RUST, .run = rust_write};
