/* zstd's thread pool (lib/common/pool.h) over the pool of the library's examples. It replaces zstd's lib/common/pool.c. */
#include "zstd_deps.h"
#include "zstd_internal.h" /* ZSTD_customCalloc, ZSTD_customFree */
#include "pool.h"

#include "fak_pool.h"

struct POOL_ctx_s {
    ZSTD_customMem memory;
    fak_pool *pool;
};

ZSTD_threadPool *ZSTD_createThreadPool(size_t workers) {
    return POOL_create(workers, 0);
}

void ZSTD_freeThreadPool(ZSTD_threadPool *pool) {
    POOL_free(pool);
}

POOL_ctx *POOL_create(size_t workers, size_t waiting) {
    return POOL_create_advanced(workers, waiting, ZSTD_defaultCMem);
}

POOL_ctx *POOL_create_advanced(size_t workers, size_t waiting, ZSTD_customMem memory) {
    POOL_ctx *self = (POOL_ctx *)ZSTD_customCalloc(sizeof *self, memory);
    if (self == NULL)
        return NULL;
    self->memory = memory;
    self->pool = fak_pool_create(workers, waiting);
    if (self->pool == NULL) {
        ZSTD_customFree(self, memory);
        return NULL;
    }
    return self;
}

void POOL_free(POOL_ctx *self) {
    if (self == NULL)
        return;
    fak_pool_free(self->pool);
    ZSTD_customFree(self, self->memory);
}

void POOL_joinJobs(POOL_ctx *self) {
    fak_pool_join(self->pool);
}

int POOL_resize(POOL_ctx *self, size_t workers) {
    return self == NULL || !fak_pool_resize(self->pool, workers);
}

size_t POOL_sizeof(const POOL_ctx *self) {
    return self == NULL ? 0 : sizeof *self + fak_pool_bytes(self->pool);
}

void POOL_add(POOL_ctx *self, POOL_function run, void *argument) {
    fak_pool_add(self->pool, run, argument);
}

int POOL_tryAdd(POOL_ctx *self, POOL_function run, void *argument) {
    return fak_pool_try_add(self->pool, run, argument);
}
