/* The calls of the header. Each call allows NULL where a length is 0, and NULL as the fault, which the proved calls do
   not. Then it makes the proved call of the same name, from the build that fits. If nothing is NULL, rs_encode_shards
   and rs_decode_shards do so at once. */
#include "choice.h"
#include "memory.h"

/* The proved calls take no NULL. A pointer to nothing becomes a pointer to this object, of which no byte is read or
   written. */
static _Alignas(16) unsigned char nowhere[16];

static void *at(const void *pointer, size_t length) {
    return length ? (void *)pointer : nowhere;
}

/* What a call over arrays keeps: the place of its fault, its copies of arrays, and whether there was no memory for a
   copy. */
struct call {
    struct rs_fault *fault, unread;
    void *copies[3];
    unsigned number;
    bool failed;
};

/* Whether one of the pointers of an array is NULL. An entry has `size` bytes, and ends as struct rs_bytes. */
static inline bool has_null(const void *entries, size_t number, size_t size) {
    const unsigned char *next = entries, *bytes;
    for (size_t i = 0; i < number; i++, next += size) {
        memcpy(&bytes, next + size - sizeof(struct rs_bytes), sizeof bytes);
        if (!bytes) return true;
    }
    return false;
}

/* The array that the proved call takes: the caller's, or if a pointer is NULL, a copy with other pointers in all
   entries without bytes. */
static const void *taken(struct call *call, const void *entries, size_t number, size_t size) {
    if (!has_null(entries, number, size)) return at(entries, number);
    struct tried block = rs_alloc(number * size, 8);
    if (!block.ok) {
        *call->fault = (struct rs_fault){RS_OUT_OF_MEMORY, 0, 0, 0};
        call->failed = true;
        return NULL;
    }
    unsigned char *copy = call->copies[call->number++] = memcpy(block.at, entries, number * size);
    for (unsigned char *next = copy; next < copy + number * size; next += size) {
        struct rs_bytes end;
        memcpy(&end, next + size - sizeof end, sizeof end);
        end.bytes = at(end.bytes, end.length);
        memcpy(next + size - sizeof end, &end, sizeof end);
    }
    return copy;
}

/* Gives back the copies, restores the loan of before, and returns what the call has returned. */
static inline uint32_t ended(struct call *call, const struct lent *loan, uint32_t answer) {
    while (call->number) rs_dealloc(call->copies[--call->number]);
    return taken_back(loan, answer);
}

uint32_t rs_supports(size_t original_count, size_t recovery_count) {
    return rs_supports_v1(original_count, recovery_count);
}

uint32_t rs_version(void) {
    return rs_version_v1();
}

const char *rs_version_text(void) {
    return RS_VERSION_TEXT;
}

const char *rs_build_name(void) {
    return fitting()->name;
}

uint32_t rs_tables_make(struct rs_tables *tables) {
    return fitting()->tables_make(tables);
}

size_t rs_tables_bytes(void) {
    return sizeof(struct rs_tables);
}

size_t rs_shard_bytes(size_t total, size_t original_count) {
    if (!original_count) return 0;
    size_t size = total / original_count + (total % original_count != 0);
    return size ? size + size % 2 : 2;
}

uint32_t rs_encode(const struct rs_tables *tables, size_t original_count, size_t recovery_count, size_t shard_bytes,
                   const uint8_t *originals, size_t originals_length, uint8_t *recovery, size_t recovery_length,
                   struct rs_fault *fault) {
    LEND_STACK;
    return taken_back(&loan, fitting()->encode(tables, original_count, recovery_count, shard_bytes,
                                               at(originals, originals_length), originals_length,
                                               at(recovery, recovery_length), recovery_length,
                                               fault ? fault : &(struct rs_fault){0}));
}

uint32_t rs_decode(const struct rs_tables *tables, size_t original_count, size_t recovery_count, size_t shard_bytes,
                   uint8_t *originals, size_t originals_length, const uint8_t *recovery, size_t recovery_length,
                   const uint8_t *marks, size_t marks_length, struct rs_fault *fault) {
    LEND_STACK;
    return taken_back(&loan, fitting()->decode(tables, original_count, recovery_count, shard_bytes,
                                               at(originals, originals_length), originals_length,
                                               at(recovery, recovery_length), recovery_length, at(marks, marks_length),
                                               marks_length, fault ? fault : &(struct rs_fault){0}));
}

uint32_t rs_encode_shards(const struct rs_tables *tables, size_t original_count, size_t recovery_count,
                          const struct rs_bytes *originals, size_t originals_number, const struct rs_room *recovery,
                          size_t recovery_number, struct rs_fault *fault) {
    LEND_STACK;
    if (fault && !has_null(originals, originals_number, sizeof *originals) &&
        !has_null(recovery, recovery_number, sizeof *recovery))
        return taken_back(&loan, fitting()->encode_shards(tables, original_count, recovery_count,
                                                          at(originals, originals_number), originals_number,
                                                          at(recovery, recovery_number), recovery_number, fault));
    struct call call = {.fault = fault ? fault : &call.unread};
    originals = taken(&call, originals, originals_number, sizeof *originals);
    recovery = taken(&call, recovery, recovery_number, sizeof *recovery);
    if (call.failed) return ended(&call, &loan, RS_OUT_OF_MEMORY);
    return ended(&call, &loan,
                 fitting()->encode_shards(tables, original_count, recovery_count, originals, originals_number, recovery,
                                          recovery_number, call.fault));
}

uint32_t rs_decode_shards(const struct rs_tables *tables, size_t original_count, size_t recovery_count,
                          const struct rs_shard *originals, size_t originals_number, const struct rs_shard *recovery,
                          size_t recovery_number, const struct rs_room *restored, size_t restored_number,
                          struct rs_fault *fault) {
    LEND_STACK;
    if (fault && !has_null(originals, originals_number, sizeof *originals) &&
        !has_null(recovery, recovery_number, sizeof *recovery) &&
        !has_null(restored, restored_number, sizeof *restored))
        return taken_back(&loan, fitting()->decode_shards(tables, original_count, recovery_count,
                                                          at(originals, originals_number), originals_number,
                                                          at(recovery, recovery_number), recovery_number,
                                                          at(restored, restored_number), restored_number, fault));
    struct call call = {.fault = fault ? fault : &call.unread};
    originals = taken(&call, originals, originals_number, sizeof *originals);
    recovery = taken(&call, recovery, recovery_number, sizeof *recovery);
    restored = taken(&call, restored, restored_number, sizeof *restored);
    if (call.failed) return ended(&call, &loan, RS_OUT_OF_MEMORY);
    return ended(&call, &loan,
                 fitting()->decode_shards(tables, original_count, recovery_count, originals, originals_number, recovery,
                                          recovery_number, restored, restored_number, call.fault));
}

uint32_t rs_verify(const struct rs_tables *tables, size_t original_count, size_t recovery_count,
                   const struct rs_shard *originals, size_t originals_number, const struct rs_shard *recovery,
                   size_t recovery_number, struct rs_fault *fault) {
    LEND_STACK;
    struct call call = {.fault = fault ? fault : &call.unread};
    originals = taken(&call, originals, originals_number, sizeof *originals);
    recovery = taken(&call, recovery, recovery_number, sizeof *recovery);
    if (call.failed) return ended(&call, &loan, RS_OUT_OF_MEMORY);
    return ended(&call, &loan,
                 fitting()->verify(tables, original_count, recovery_count, originals, originals_number, recovery,
                                   recovery_number, call.fault));
}

uint32_t rs_reconstruct(const struct rs_tables *tables, size_t original_count, size_t recovery_count,
                        const struct rs_shard *originals, size_t originals_number, const struct rs_shard *recovery,
                        size_t recovery_number, const struct rs_wanted *wanted, size_t wanted_number,
                        const struct rs_room *rooms, size_t rooms_number, struct rs_fault *fault) {
    LEND_STACK;
    struct call call = {.fault = fault ? fault : &call.unread};
    originals = taken(&call, originals, originals_number, sizeof *originals);
    recovery = taken(&call, recovery, recovery_number, sizeof *recovery);
    rooms = taken(&call, rooms, rooms_number, sizeof *rooms);
    if (call.failed) return ended(&call, &loan, RS_OUT_OF_MEMORY);
    return ended(&call, &loan,
                 fitting()->reconstruct(tables, original_count, recovery_count, originals, originals_number, recovery,
                                        recovery_number, at(wanted, wanted_number), wanted_number, rooms, rooms_number,
                                        call.fault));
}

uint32_t rs_update(const struct rs_tables *tables, size_t original_count, size_t recovery_count, size_t index,
                   const uint8_t *before, size_t before_length, const uint8_t *after, size_t after_length,
                   const struct rs_room *recovery, size_t recovery_number, struct rs_fault *fault) {
    LEND_STACK;
    struct call call = {.fault = fault ? fault : &call.unread};
    recovery = taken(&call, recovery, recovery_number, sizeof *recovery);
    if (call.failed) return ended(&call, &loan, RS_OUT_OF_MEMORY);
    return ended(&call, &loan,
                 fitting()->update(tables, original_count, recovery_count, index, at(before, before_length),
                                   before_length, at(after, after_length), after_length, recovery, recovery_number,
                                   call.fault));
}

size_t rs_fault_text(const struct rs_fault *fault, char *text, size_t text_length) {
    size_t most = text_length ? text_length - 1 : 0;
    size_t length = rs_fault_text_v1(fault, at(text, most), most);
    if (text_length) text[length < most ? length : most] = 0;
    return length;
}

#ifdef RS_SHARED
/* Programs that were linked with version 1.2 or an older one call this function as rs_fault_text. It writes no NUL. */
__asm__(".symver rs_fault_text_before, rs_fault_text@RS_1\n.symver rs_fault_text, rs_fault_text@@@RS_1.3");
size_t rs_fault_text_before(const struct rs_fault *fault, uint8_t *text, size_t text_length) {
    return rs_fault_text_v1(fault, at(text, text_length), text_length);
}
#endif

const char *rs_status_name(uint32_t number) {
    static const char *const names[] = {"RS_OK",
                                        "RS_OUT_OF_MEMORY",
                                        "RS_UNSUPPORTED_SHARD_COUNT",
                                        "RS_INVALID_SHARD_SIZE",
                                        "RS_DIFFERENT_SHARD_SIZE",
                                        "RS_TOO_FEW_ORIGINAL_SHARDS",
                                        "RS_TOO_MANY_ORIGINAL_SHARDS",
                                        "RS_NOT_ENOUGH_SHARDS",
                                        "RS_INVALID_ORIGINAL_SHARD_INDEX",
                                        "RS_INVALID_RECOVERY_SHARD_INDEX",
                                        "RS_DUPLICATE_ORIGINAL_SHARD_INDEX",
                                        "RS_DUPLICATE_RECOVERY_SHARD_INDEX",
                                        "RS_INCONSISTENT_SHARDS",
                                        "RS_WRONG_LENGTH",
                                        "RS_WRONG_NUMBER_OF_ROOMS",
                                        "RS_TABLES_NOT_MADE",
                                        "RS_WANTED_INDEX_TOO_LARGE",
                                        "RS_WANTED_TWICE",
                                        "RS_WANTED_RECEIVED"};
    return number < sizeof names / sizeof *names ? names[number] : "unknown";
}

/* The calls that c/work.c and c/sizes.c make. */
#define ALIAS(call) INSIDE(call) __attribute__((alias(#call)))
ALIAS(rs_supports);
ALIAS(rs_tables_make);
ALIAS(rs_encode);
ALIAS(rs_decode);
ALIAS(rs_encode_shards);
ALIAS(rs_decode_shards);
ALIAS(rs_verify);
ALIAS(rs_reconstruct);
ALIAS(rs_update);
