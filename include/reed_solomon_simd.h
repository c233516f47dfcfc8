/* Reed-Solomon erasure codes over GF(2^16), version 1.4 of the interface. docs/C.md explains how to build and use the
 * library.
 *
 * The library turns k original shards of the same even size into r recovery shards. Any k of these k + r shards give
 * back the missing originals.
 *
 * You can cut the shards of a message into pieces, and encode or decode each piece separately. Cut all shards at the
 * same places, and let every piece but the last end at a multiple of 64 bytes. You get the same bytes as from whole
 * shards, because each chunk of 64 bytes is coded separately: for whole numbers a < b, the bytes from 64a up to, but
 * not including, 64b of all shards form a message of their own. So a program can read and write streams, use several
 * threads for one message, and show progress. The memory that a call takes for its rows does not grow with the size of
 * long shards. A decode that gets more than k shards also takes memory for the missing originals, and so does an
 * rs_decode_shards whose rooms do not fit. Shorter pieces take less of this memory.
 *
 * On x86-64, the library holds three builds of its code: for every 64-bit processor, for x86-64-v2 (with SSE4.2) and
 * for x86-64-v3 (with AVX2). At its first call, it finds out which of them the processor and the system can run, and
 * all calls use the newest of these. All builds write the same bytes, and tables that one build filled serve the
 * others. On arm64, the library holds one build. rs_build_name returns the name of the build that runs. A test can
 * choose an older one by setting the variable RS_BUILD of the environment before the first call.
 *
 * rs_encode and rs_encode_shards take memory for their rows alone. Apart from its rows, rs_decode takes a list of 8
 * bytes for each original. rs_decode_shards, rs_verify and rs_reconstruct take two lists of references to shards, 24
 * bytes for each of the k + r shards. rs_reconstruct also takes 16 bytes for each requested shard, and 1 byte for each
 * of the k + r shards. If few shards are lost or requested, rs_decode, rs_decode_shards and rs_reconstruct take no
 * rows. Most calls that do not encode also take a few bytes for each row of a decode and for each lost shard. C.md has
 * a table of all this memory. A decode without recovery shards takes no memory. If an entry of an array of shards or
 * rooms has NULL as its pointer, the call makes a copy of this array, and fails with RS_OUT_OF_MEMORY before all other
 * checks if it cannot allocate the copy.
 *
 * A call that encodes, decodes, verifies, reconstructs or updates takes its first blocks from about 4 KB of its stack.
 * It allocates the others by malloc, or by an allocator of the program. A program that must not allocate uses the
 * calls whose names end in _with_work: they take all their memory from work memory, which the caller passes.
 *
 * The caller must keep these rules. Nothing checks them:
 *   - Pointers: each pointer points to as many bytes or entries as the length that belongs to it says, and is aligned
 *     for its type. If this length is 0, the pointer may be NULL, or any other pointer. This is also true of pointers
 *     in arrays of shards and of rooms. A room is a place for a shard that a call writes. The
 *     pointer to a fault that a call writes may be NULL. The pointer to tables, and the pointer to the fault that
 *     rs_fault_text reads, are never NULL.
 *   - While a call runs, nobody else writes to memory that was passed to the call, whether the call reads or writes
 *     it: no other thread, no signal handler, no other process and no device. Nobody else reads memory that the call
 *     writes. Memory that a call writes overlaps no other memory that was passed to it.
 *   - Memory that a call reads is initialised: the shards that a call gets (in rs_decode, those that the marks say are
 *     there), the marks of rs_decode, the recovery shards of rs_update, arrays, the fault that rs_fault_text gets, and
 *     tables. Memory that a call only writes need not be initialised: the tables of rs_tables_make, recovery shards of
 *     an encode, the places of lost shards in rs_decode, the memory that the rooms of other calls than rs_update point
 *     to, texts, work memory, and *fault.
 *   - Nobody but rs_tables_make writes to tables that rs_tables_make has filled. The last thing that rs_tables_make
 *     writes is a stamp. Other memory that is passed as tables must not hold this stamp by chance. Memory full of
 *     zeros doesn't hold it.
 *   - A program that links its own allocator instead of c/heap.c must provide all three functions of c/heap.c:
 *     rattle_alloc, rattle_realloc and rattle_dealloc. Each block must have the alignment that the library asks for,
 *     which is at most 16 bytes. The first two functions return a struct with a pointer `at`. This pointer must never
 *     be NULL, not even if memory cannot be allocated. If rattle_realloc fails, it must leave the old block as it was.
 *
 * The comments of this header state what each call returns and writes. As long as the caller keeps these rules, these
 * statements hold for all numbers and bytes that can be passed. Each call returns, keeps no pointer, and gives back
 * all memory that it took. Any number of threads can make calls at the same time, with the same const tables. No call
 * is safe in a signal handler, nor in the forked child of a process with threads. */
#ifndef REED_SOLOMON_SIMD_H
#define REED_SOLOMON_SIMD_H

#include <stddef.h>
#include <stdint.h>

#ifdef __cplusplus
extern "C" {
#endif

/* The version of this header. A library can be used with this header if rs_version() / 65536 equals RS_VERSION /
 * 65536, and rs_version() is at least RS_VERSION. */
#define RS_VERSION 65540u

/* The same version, with a patch level as its third number. A patch changes no declaration of this header. */
#define RS_VERSION_TEXT "1.4.0"

/* With a compiler that can, a program gets a warning if it doesn't look at what a call returns, or passes NULL as the
 * tables (gcc with -Wall). */
#if defined(__GNUC__)
#define RS_CHECKED __attribute__((warn_unused_result, nonnull(1)))
#elif (defined(__cplusplus) && __cplusplus >= 201703L) || (defined(__STDC_VERSION__) && __STDC_VERSION__ >= 202311L)
#define RS_CHECKED [[nodiscard]]
#else
#define RS_CHECKED
#endif

/* The numbers that calls return. A number never gets another meaning. A later version can add numbers. */
enum rs_status {
    RS_OK = 0,
    RS_OUT_OF_MEMORY = 1,
    /* first: original_count, second: recovery_count */
    RS_UNSUPPORTED_SHARD_COUNT = 2,
    /* the size is zero or odd; first: the size */
    RS_INVALID_SHARD_SIZE = 3,
    /* first: the size that all shards must have, second: the size of the first one that differs, third: its place
       in the array originals, counted from 0. If it is a recovery shard of a decode: the number of entries of
       originals, plus its place in the array recovery */
    RS_DIFFERENT_SHARD_SIZE = 4,
    /* first: original_count, second: how many originals the caller gave */
    RS_TOO_FEW_ORIGINAL_SHARDS = 5,
    /* first: original_count */
    RS_TOO_MANY_ORIGINAL_SHARDS = 6,
    /* first: original_count, second: how many originals were received, third: how many recovery shards were
       received */
    RS_NOT_ENOUGH_SHARDS = 7,
    /* first: original_count, second: the index */
    RS_INVALID_ORIGINAL_SHARD_INDEX = 8,
    /* first: recovery_count, second: the index */
    RS_INVALID_RECOVERY_SHARD_INDEX = 9,
    /* first: the index */
    RS_DUPLICATE_ORIGINAL_SHARD_INDEX = 10,
    /* first: the index */
    RS_DUPLICATE_RECOVERY_SHARD_INDEX = 11,
    /* more than k shards were received, and they belong to no message; first: how many originals were received,
       second: how many recovery shards were received */
    RS_INCONSISTENT_SHARDS = 12,
    /* a buffer doesn't have count * size bytes, or a room (the place for one shard) isn't as long as its shard;
       first: the length that it must have, or SIZE_MAX if that is larger than SIZE_MAX, second: the length that it
       has, third: which buffer it is (0 for originals, 1 for recovery, 2 for marks), or the place of the room in
       its array, counted from 0 */
    RS_WRONG_LENGTH = 13,
    /* first: how many shards the call has to write, second: how many rooms there are */
    RS_WRONG_NUMBER_OF_ROOMS = 14,
    /* the tables don't carry the stamp that rs_tables_make writes last */
    RS_TABLES_NOT_MADE = 15,
    /* a wanted shard doesn't exist; first: the number of shards of its kind, second: its index, third: its kind,
       RS_ORIGINAL or RS_RECOVERY */
    RS_WANTED_INDEX_TOO_LARGE = 16,
    /* a shard is wanted twice; first: its index, second: its kind */
    RS_WANTED_TWICE = 17,
    /* a wanted shard was received; first: its index, second: its kind */
    RS_WANTED_RECEIVED = 18
};

/* Describes why a call failed. number is a number of enum rs_status. The comment of this number says what first,
 * second and third hold. A field that the comment doesn't mention is 0. */
struct rs_fault {
    uint32_t number;
    size_t first, second, third;
};

/* The tables that the calls below read to encode and decode. The caller provides the memory, 8.8 MB. It may come from
 * malloc or calloc, or be static or shared, but it must not be on a stack. */
#define RS_TABLE_WORDS 1097728
struct rs_tables {
    uint64_t words[RS_TABLE_WORDS];
};

/* The library is for programs whose size_t has 64 bits. */
#if defined(__cplusplus) && __cplusplus >= 201103L
static_assert(sizeof(size_t) == 8, "reed_solomon_simd is for programs whose size_t has 64 bits");
#elif defined(__STDC_VERSION__) && __STDC_VERSION__ >= 201112L
_Static_assert(sizeof(size_t) == 8, "reed_solomon_simd is for programs whose size_t has 64 bits");
#else
typedef char rs_size_t_has_64_bits[sizeof(size_t) == 8 ? 1 : -1];
#endif

/* Fills the tables. This takes 9 to 30 ms, and 17 MB of memory while the call runs. The call returns RS_OK. If it
 * cannot allocate, it returns RS_OUT_OF_MEMORY and leaves the tables as they were. tables must not be NULL. */
RS_CHECKED uint32_t rs_tables_make(struct rs_tables *tables);

/* Returns how many bytes the tables have in this library. A program that gets the library by dlopen, or that is
 * written in another language, can allocate the tables by this number. They must be aligned at 8 bytes. */
size_t rs_tables_bytes(void);

/* Returns 1 if the library supports these counts, else 0. */
uint32_t rs_supports(size_t original_count, size_t recovery_count);

/* Four calls encode and decode: rs_encode, rs_decode, rs_encode_shards and rs_decode_shards. rs_verify checks received
 * shards, and rs_reconstruct makes wanted shards from received ones. rs_update updates recovery shards. All seven
 * return RS_OK or the number of the fault. They write the number and its values to *fault. If they return RS_OK, they
 * write zeros to *fault. If they fail, they write nothing but *fault. The comment of each call lists its faults in the
 * order in which the call checks for them. This order is proved, except for the place of RS_OUT_OF_MEMORY: the
 * contracts allow it at any place after the checks of the counts, of the lengths of buffers and of the size of the
 * first shard that the call looks at. rs_update is stricter: it can return RS_OUT_OF_MEMORY only instead of RS_OK.
 * There is one more place: if an entry of an array has NULL as its pointer, the call copies this array before it checks
 * anything, even the tables, and fails with RS_OUT_OF_MEMORY if it cannot allocate the copy.
 *
 * Before all checks that these comments list, each call checks the tables. It fails with RS_TABLES_NOT_MADE if
 * rs_tables_make has not filled them: for example, if they hold only zeros, or if a version with another layout, such
 * as 1.1, filled them. The stamp is no checksum: no call notices that other bytes of the tables were changed.
 *
 * If fault is NULL, a call only returns the number.
 *
 * rs_encode and rs_decode take buffers, where shard i begins at byte i * shard_bytes. */

/* Writes the recovery shards of the originals.
 *
 * Faults, in order:
 *   - RS_UNSUPPORTED_SHARD_COUNT
 *   - RS_WRONG_LENGTH for originals_length
 *   - RS_WRONG_LENGTH for recovery_length
 *   - RS_INVALID_SHARD_SIZE
 *   - RS_OUT_OF_MEMORY if the rows for the whole shards would take more than SIZE_MAX bytes, or if memory cannot be
 *     allocated */
RS_CHECKED uint32_t rs_encode(const struct rs_tables *tables, size_t original_count, size_t recovery_count,
                              size_t shard_bytes,
                              const uint8_t *originals, size_t originals_length,
                              uint8_t *recovery, size_t recovery_length, struct rs_fault *fault);

/* Restores the lost originals from all shards that are there, and writes them to their places in originals.
 *
 * marks has a byte for each original, and then a byte for each recovery shard: 0 if the shard is lost, any other value
 * if it is there. The call doesn't read the place of a lost shard, and writes nothing but the places of lost
 * originals.
 *
 * Faults, in order:
 *   - RS_UNSUPPORTED_SHARD_COUNT
 *   - RS_WRONG_LENGTH for originals_length
 *   - RS_WRONG_LENGTH for recovery_length
 *   - RS_WRONG_LENGTH for marks_length
 *   - If a recovery shard is there: the faults of the list below.
 *   - If no recovery shard is there: RS_NOT_ENOUGH_SHARDS if an original is lost. Without recovery shards, the call
 *     accepts any size and needs no memory.
 *
 * The faults if a recovery shard is there, in order:
 *   - RS_INVALID_SHARD_SIZE
 *   - RS_OUT_OF_MEMORY if the rows for the whole shards would take more than SIZE_MAX bytes, or if the list of the
 *     lost originals cannot be allocated
 *   - RS_NOT_ENOUGH_SHARDS
 *   - RS_OUT_OF_MEMORY for the rows
 *   - RS_INCONSISTENT_SHARDS
 *   - RS_OUT_OF_MEMORY for the missing originals if there are more than original_count shards */
RS_CHECKED uint32_t rs_decode(const struct rs_tables *tables, size_t original_count, size_t recovery_count,
                              size_t shard_bytes,
                              uint8_t *originals, size_t originals_length,
                              const uint8_t *recovery, size_t recovery_length,
                              const uint8_t *marks, size_t marks_length, struct rs_fault *fault);

/* rs_encode_shards and rs_decode_shards take arrays of shards and of rooms. A room is a place for a shard that the
 * call writes. Shards and rooms can lie anywhere in memory. A call doesn't write to an array of rooms. It writes to
 * the memory that the rooms point to. struct rs_bytes and struct rs_room have the layout of POSIX's struct iovec. */
struct rs_bytes {
    const uint8_t *bytes;
    size_t length;
};
struct rs_room {
    uint8_t *bytes;
    size_t length;
};
struct rs_shard {
    size_t index;
    const uint8_t *bytes;
    size_t length;
};

/* Writes the recovery shards of the originals into rooms. The array originals holds the originals in order of index.
 * The array recovery holds one room for each recovery shard, in order of index. The size of all shards is that of the
 * first original.
 *
 * Faults, in order:
 *   - RS_UNSUPPORTED_SHARD_COUNT
 *   - RS_TOO_FEW_ORIGINAL_SHARDS if there is no original
 *   - RS_INVALID_SHARD_SIZE
 *   - RS_OUT_OF_MEMORY if the rows for the whole shards would take more than SIZE_MAX bytes
 *   - For each original in order: RS_TOO_MANY_ORIGINAL_SHARDS or RS_DIFFERENT_SHARD_SIZE.
 *   - RS_TOO_FEW_ORIGINAL_SHARDS if there are fewer than original_count originals
 *   - RS_WRONG_NUMBER_OF_ROOMS
 *   - RS_WRONG_LENGTH for the first room that isn't as long as a shard
 *   - RS_OUT_OF_MEMORY for the rows */
RS_CHECKED uint32_t rs_encode_shards(const struct rs_tables *tables, size_t original_count, size_t recovery_count,
                                     const struct rs_bytes *originals, size_t originals_number,
                                     const struct rs_room *recovery, size_t recovery_number, struct rs_fault *fault);

/* Restores the originals that are not in the array originals, and writes them into rooms. The array restored holds one
 * room for each of these originals, in order of index. Shards can be in any order in the arrays originals and
 * recovery. The size of all shards is that of the first recovery shard. The indexes of originals begin at 0. Recovery
 * shards have indexes of their own, which also begin at 0.
 *
 * Faults, in order:
 *   - RS_UNSUPPORTED_SHARD_COUNT
 *   - If there is a recovery shard: the faults of the first list below.
 *   - If there is no recovery shard: the faults of the second list below.
 *   - RS_WRONG_NUMBER_OF_ROOMS
 *   - RS_WRONG_LENGTH for the first room that isn't as long as a shard
 *
 * The faults if there is a recovery shard, in order:
 *   - RS_INVALID_SHARD_SIZE
 *   - RS_OUT_OF_MEMORY if the rows for the whole shards would take more than SIZE_MAX bytes, or if the lists of
 *     references cannot be allocated
 *   - For each original in order: RS_INVALID_ORIGINAL_SHARD_INDEX, RS_DUPLICATE_ORIGINAL_SHARD_INDEX or
 *     RS_DIFFERENT_SHARD_SIZE.
 *   - For each recovery shard in order: RS_INVALID_RECOVERY_SHARD_INDEX, RS_DUPLICATE_RECOVERY_SHARD_INDEX or
 *     RS_DIFFERENT_SHARD_SIZE.
 *   - RS_NOT_ENOUGH_SHARDS
 *   - RS_OUT_OF_MEMORY for the rows
 *   - RS_INCONSISTENT_SHARDS
 *   - RS_OUT_OF_MEMORY for the missing originals if there are more than original_count shards or the rooms don't fit
 *
 * The faults if there is no recovery shard, in order. In this case the call accepts any sizes, and it needs memory
 * only for the copy of an array that has NULL:
 *   - For each original in order: RS_INVALID_ORIGINAL_SHARD_INDEX or RS_DUPLICATE_ORIGINAL_SHARD_INDEX.
 *   - RS_NOT_ENOUGH_SHARDS */
RS_CHECKED uint32_t rs_decode_shards(const struct rs_tables *tables, size_t original_count, size_t recovery_count,
                                     const struct rs_shard *originals, size_t originals_number,
                                     const struct rs_shard *recovery, size_t recovery_number,
                                     const struct rs_room *restored, size_t restored_number, struct rs_fault *fault);

/* Checks whether the received shards belong to one message. It returns RS_OK if there is a message that agrees with
 * all of them. If exactly original_count shards were received, there always is one, so the call cannot notice damage.
 * If t more were received, and at least one but at most t of all received shards are damaged, it returns
 * RS_INCONSISTENT_SHARDS.
 *
 * The arrays are those of rs_decode_shards, in any order. The size of all shards is that of the first recovery shard,
 * or if there is none, that of the first original. The call writes nothing but *fault.
 *
 * Faults, in order:
 *   - RS_UNSUPPORTED_SHARD_COUNT
 *   - RS_NOT_ENOUGH_SHARDS if there is no shard
 *   - RS_INVALID_SHARD_SIZE
 *   - RS_OUT_OF_MEMORY if the rows for the whole shards would take more than SIZE_MAX bytes, or if the lists of
 *     references cannot be allocated
 *   - For each original in order: RS_INVALID_ORIGINAL_SHARD_INDEX, RS_DUPLICATE_ORIGINAL_SHARD_INDEX or
 *     RS_DIFFERENT_SHARD_SIZE.
 *   - For each recovery shard in order: RS_INVALID_RECOVERY_SHARD_INDEX, RS_DUPLICATE_RECOVERY_SHARD_INDEX or
 *     RS_DIFFERENT_SHARD_SIZE.
 *   - RS_NOT_ENOUGH_SHARDS if there are fewer than original_count shards
 *   - RS_OUT_OF_MEMORY for the rows
 *   - RS_INCONSISTENT_SHARDS */
RS_CHECKED uint32_t rs_verify(const struct rs_tables *tables, size_t original_count, size_t recovery_count,
                              const struct rs_shard *originals, size_t originals_number,
                              const struct rs_shard *recovery, size_t recovery_number, struct rs_fault *fault);

/* The kinds of shards. Any other number as the kind of a wanted shard means a recovery shard, too. */
enum rs_kind { RS_ORIGINAL = 0, RS_RECOVERY = 1 };

/* The name of a wanted shard: its kind, and its index among the shards of this kind. */
struct rs_wanted {
    size_t kind, index;
};

/* Reconstructs the wanted shards of a message from the received shards, and writes them into rooms, in the order of
 * the array wanted. A wanted shard is an original or a recovery shard that was not received. The array rooms holds one
 * room for each wanted shard. The received shards are passed as to rs_verify. If there are more than original_count of
 * them, the call checks that all of them belong to one message.
 *
 * Faults, in order:
 *   - The faults of rs_verify up to and including RS_NOT_ENOUGH_SHARDS, in its order. The call also fails with
 *     RS_OUT_OF_MEMORY if the lists of the wanted shards cannot be allocated.
 *   - For each wanted shard in order: RS_WANTED_INDEX_TOO_LARGE, RS_WANTED_TWICE or RS_WANTED_RECEIVED.
 *   - RS_WRONG_NUMBER_OF_ROOMS
 *   - RS_WRONG_LENGTH for the first room that isn't as long as a shard
 *   - RS_OUT_OF_MEMORY for the rows
 *   - RS_INCONSISTENT_SHARDS
 *   - RS_OUT_OF_MEMORY for the wanted shards if there are more than original_count shards */
RS_CHECKED uint32_t rs_reconstruct(const struct rs_tables *tables, size_t original_count, size_t recovery_count,
                                   const struct rs_shard *originals, size_t originals_number,
                                   const struct rs_shard *recovery, size_t recovery_number,
                                   const struct rs_wanted *wanted, size_t wanted_number,
                                   const struct rs_room *rooms, size_t rooms_number, struct rs_fault *fault);

/* Updates recovery shards after the original with this index has changed. before is the original before the change,
 * and after is the original after it. The other originals are not needed. The array recovery holds one room for each
 * recovery shard, in order of index. Before the call, the rooms hold the recovery shards of the message with the
 * original before the change. After it, they hold those of the message with the changed original.
 *
 * Faults, in order:
 *   - RS_UNSUPPORTED_SHARD_COUNT
 *   - RS_INVALID_SHARD_SIZE if before_length is zero or odd
 *   - RS_INVALID_ORIGINAL_SHARD_INDEX
 *   - RS_DIFFERENT_SHARD_SIZE if after_length isn't before_length; third: 1
 *   - RS_WRONG_NUMBER_OF_ROOMS
 *   - RS_WRONG_LENGTH for the first room that isn't as long as the original
 *   - RS_OUT_OF_MEMORY for the factors of the recovery shards */
RS_CHECKED uint32_t rs_update(const struct rs_tables *tables, size_t original_count, size_t recovery_count,
                              size_t index,
                              const uint8_t *before, size_t before_length,
                              const uint8_t *after, size_t after_length,
                              const struct rs_room *recovery, size_t recovery_number, struct rs_fault *fault);

/* The calls whose names end in _with_work take all their memory from work memory: work_length bytes from the address
 * work on, which the caller passes. Each of them does what the call does that has the same name without _with_work,
 * and requests no memory from malloc or from the program's allocator. If the work memory is too small, the call fails
 * with RS_OUT_OF_MEMORY, just as the other call does if it cannot allocate.
 *
 * Work memory may begin at any byte, and may hold anything. The call writes to it, and leaves unspecified bytes in it.
 * After the call has returned, the caller may use the memory again, for example for the next call. Calls that run at
 * the same time must not share it. */

/* Returns how many bytes of work memory are enough for each of the four calls that encode or decode, with these counts
 * and with shards of shard_bytes bytes. Pass 0 as restored, unless a decode can get more than original_count shards.
 * Such a decode also takes memory for the originals that it restores: then restored is the largest number of originals
 * that such a decode restores.
 *
 * Returns 0 if the counts are not supported, if the size is 0 or odd, if restored is larger than original_count, or if
 * the shards are so long that the number could be larger than SIZE_MAX.
 *
 * With this much work memory, a call fails with RS_OUT_OF_MEMORY only in these cases:
 *   - The rows for the whole shards would take more than SIZE_MAX bytes.
 *   - A decode gets more than original_count shards, and restores more than `restored` originals.
 *   - The rooms of rs_decode_shards_with_work do not fit. Then it can fail with RS_OUT_OF_MEMORY instead of
 *     RS_WRONG_NUMBER_OF_ROOMS and RS_WRONG_LENGTH.
 *   - An array has more entries than the counts allow, and one of its pointers is NULL. */
size_t rs_work_bytes(size_t original_count, size_t recovery_count, size_t shard_bytes, size_t restored);

/* The same for rs_verify_with_work. */
size_t rs_verify_work_bytes(size_t original_count, size_t recovery_count, size_t shard_bytes);

/* The same for rs_reconstruct_with_work. Here restored is the largest number of shards that a call wants which gets
 * more than original_count shards. A call that gets exactly original_count shards can want any of the others. */
size_t rs_reconstruct_work_bytes(size_t original_count, size_t recovery_count, size_t shard_bytes, size_t restored);

/* The same for rs_update_with_work, with shards of any size. */
size_t rs_update_work_bytes(size_t original_count, size_t recovery_count);

/* Returns how many bytes of work memory are enough for rs_tables_make_with_work: 17 MB. */
size_t rs_tables_work_bytes(void);

/* rs_tables_make with work memory. */
RS_CHECKED uint32_t rs_tables_make_with_work(struct rs_tables *tables, void *work, size_t work_length);

/* rs_encode with work memory. */
RS_CHECKED uint32_t rs_encode_with_work(const struct rs_tables *tables, size_t original_count, size_t recovery_count,
                                        size_t shard_bytes,
                                        const uint8_t *originals, size_t originals_length,
                                        uint8_t *recovery, size_t recovery_length,
                                        void *work, size_t work_length, struct rs_fault *fault);

/* rs_decode with work memory. */
RS_CHECKED uint32_t rs_decode_with_work(const struct rs_tables *tables, size_t original_count, size_t recovery_count,
                                        size_t shard_bytes,
                                        uint8_t *originals, size_t originals_length,
                                        const uint8_t *recovery, size_t recovery_length,
                                        const uint8_t *marks, size_t marks_length,
                                        void *work, size_t work_length, struct rs_fault *fault);

/* rs_encode_shards with work memory. */
RS_CHECKED uint32_t rs_encode_shards_with_work(const struct rs_tables *tables, size_t original_count,
                                               size_t recovery_count,
                                               const struct rs_bytes *originals, size_t originals_number,
                                               const struct rs_room *recovery, size_t recovery_number,
                                               void *work, size_t work_length, struct rs_fault *fault);

/* rs_decode_shards with work memory. */
RS_CHECKED uint32_t rs_decode_shards_with_work(const struct rs_tables *tables, size_t original_count,
                                               size_t recovery_count,
                                               const struct rs_shard *originals, size_t originals_number,
                                               const struct rs_shard *recovery, size_t recovery_number,
                                               const struct rs_room *restored, size_t restored_number,
                                               void *work, size_t work_length, struct rs_fault *fault);

/* rs_verify with work memory. */
RS_CHECKED uint32_t rs_verify_with_work(const struct rs_tables *tables, size_t original_count, size_t recovery_count,
                                        const struct rs_shard *originals, size_t originals_number,
                                        const struct rs_shard *recovery, size_t recovery_number,
                                        void *work, size_t work_length, struct rs_fault *fault);

/* rs_reconstruct with work memory. */
RS_CHECKED uint32_t rs_reconstruct_with_work(const struct rs_tables *tables, size_t original_count,
                                             size_t recovery_count,
                                             const struct rs_shard *originals, size_t originals_number,
                                             const struct rs_shard *recovery, size_t recovery_number,
                                             const struct rs_wanted *wanted, size_t wanted_number,
                                             const struct rs_room *rooms, size_t rooms_number,
                                             void *work, size_t work_length, struct rs_fault *fault);

/* rs_update with work memory. */
RS_CHECKED uint32_t rs_update_with_work(const struct rs_tables *tables, size_t original_count, size_t recovery_count,
                                        size_t index,
                                        const uint8_t *before, size_t before_length,
                                        const uint8_t *after, size_t after_length,
                                        const struct rs_room *recovery, size_t recovery_number,
                                        void *work, size_t work_length, struct rs_fault *fault);

/* Writes the text of a fault in ASCII and a NUL after it, as snprintf does, and returns the length of the whole text
 * without the NUL. If the text and its NUL have more than text_length bytes, the call writes the first text_length - 1
 * bytes of the text and then the NUL. If text_length is 0, the call writes nothing, and text may be NULL. A text has
 * fewer than 128 bytes. It is empty if fault->number is not the number of a fault. The call needs no memory, and
 * doesn't change the bytes after the NUL. fault must not be NULL. */
size_t rs_fault_text(const struct rs_fault *fault, char *text, size_t text_length);

/* Returns the name of a number of enum rs_status, for example "RS_WRONG_LENGTH", or "unknown" if the number is not one
 * of them. The string is constant and ends with a NUL. */
const char *rs_status_name(uint32_t number);

/* Returns how long shards must be for a message of total bytes: the least even size, and at least 2, with which
 * original_count shards hold total bytes. Returns 0 if there is no such size, which is so if original_count is 0, or
 * if the size would be larger than SIZE_MAX. */
size_t rs_shard_bytes(size_t total, size_t original_count);

/* Returns the version of the library: the major number times 65536, plus the minor number. */
uint32_t rs_version(void);

/* Returns the version of the library as a text, with its patch level, for example "1.4.0". */
const char *rs_version_text(void);

/* Returns which build of the library all calls of this process use: "x86-64-v3", "x86-64-v2", "x86-64" or "arm64". */
const char *rs_build_name(void);

#ifdef __cplusplus
}
#endif

#endif
