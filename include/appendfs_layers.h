/*
 * The layered inode store of appendfs, proved: every read and every change of an image.
 *
 * An image is the whole store as bytes (docs/FORMAT.md). A call gets the image and answers for any bytes whatever: it refuses what
 * is no image, and never reads or writes outside the memory it was lent. No call keeps anything; all calls may run at the same time.
 *
 * What a caller owes, and nothing else:
 *  - a pointer and its length stand for that many bytes of memory that stay as they are during the call;
 *  - no pointer is null, also where its length is 0 (lend the address of any byte);
 *  - what is lent to be written (`target`, `rows`) overlaps nothing else that is lent to the same call.
 *
 * Every answer starts with `refusal`: 0, or the number of the refusal, and then every other field is 0. A call that is refused has
 * written nothing.
 *
 *    1  image over 65,536 bytes                 7  freeze: live is empty
 *    2  image not by the layout                 8  fold, pop: no batch
 *    3  name empty or over 255 bytes            9  pop: not the id of the front batch
 *    4  delta, time or reason not right        10  freeze: no next id; note: a count would pass 2^32 - 1
 *    5  no room: new image over 65,536 bytes   11  normalise: position above the number of batches
 *       or over the target; rows too few
 *    6  freeze: the queue is at a limit
 *
 * Link with libffi.a; it needs memcpy, memmove and memset, and nothing else. A call needs at most 10 KiB of stack (docs/DECISIONS.md,
 * "Scratch").
 */
#ifndef APPENDFS_LAYERS_H
#define APPENDFS_LAYERS_H

#include <stdbool.h>
#include <stddef.h>
#include <stdint.h>

#ifdef __cplusplus
extern "C" {
#endif

/* A target of so many bytes has room for every image. */
#define APPENDFS_IMAGE_MAX 65536

/* The refusals. */
enum {
    APPENDFS_FINE = 0,
    APPENDFS_IMAGE_TOO_LONG = 1,
    APPENDFS_IMAGE_BROKEN = 2,
    APPENDFS_BAD_NAME = 3,
    APPENDFS_BAD_ARGUMENT = 4,
    APPENDFS_NO_ROOM = 5,
    APPENDFS_AT_CAPACITY = 6,
    APPENDFS_LIVE_EMPTY = 7,
    APPENDFS_NO_BATCH = 8,
    APPENDFS_WRONG_BATCH = 9,
    APPENDFS_COUNT_FULL = 10,
    APPENDFS_NO_LAYER = 11
};

/* The kinds of a node. */
enum {
    APPENDFS_DIRECTORY = 0,
    APPENDFS_REGULAR_FILE = 1,
    APPENDFS_SYMLINK = 2,
    APPENDFS_NAMED_PIPE = 3,
    APPENDFS_CHAR_DEVICE = 4,
    APPENDFS_BLOCK_DEVICE = 5,
    APPENDFS_SOCKET = 6
};

/* The reasons of a freeze. */
enum {
    APPENDFS_NO_REASON = 0,
    APPENDFS_FSYNC = 1,
    APPENDFS_FSYNCDIR = 2,
    APPENDFS_QUIESCE = 3,
    APPENDFS_PERIODIC = 4,
    APPENDFS_THRESHOLD = 5
};

/* ---- answers: where `found` is false there is none, which is an answer, and the fields behind it are 0 */

typedef struct {
    uint32_t refusal;
    bool yes;
} appendfs_yes_no;

typedef struct {
    uint32_t refusal;
    bool found;
    uint32_t kind;
} appendfs_type;

typedef struct {
    uint32_t refusal;
    bool found;
    uint64_t inode;
} appendfs_inode;

/* Seconds since 1970, and nanoseconds below 1,000,000,000. */
typedef struct {
    int64_t seconds;
    uint32_t nanos;
} appendfs_time;

typedef struct {
    uint64_t ino;
    uint32_t kind;
    uint32_t perm;
    uint32_t nlink;
    uint32_t uid;
    uint32_t gid;
    uint32_t rdev;
    uint64_t size;
    appendfs_time atime;
    appendfs_time mtime;
    appendfs_time ctime;
} appendfs_attributes;

typedef struct {
    uint32_t refusal;
    bool found;
    appendfs_attributes attr;
} appendfs_attr_answer;

/* A text is a part of the image that was given: `length` bytes from `img + start` on. It is always inside the image. */
typedef struct {
    uint32_t refusal;
    bool found;
    size_t start;
    size_t length;
} appendfs_text;

/* A row of a listing: where the name starts in the image that was given, its length, and the inode; 0 for an attribute. */
typedef struct {
    size_t start;
    size_t length;
    uint64_t inode;
} appendfs_entry;

/* How many of the rows lent were filled, from the first on. The rows behind them are as they were. */
typedef struct {
    uint32_t refusal;
    bool found;
    size_t count;
} appendfs_rows;

/* What a change answers: the length of the new image, which stands in the target. The target's bytes behind it are as they were. */
typedef struct {
    uint32_t refusal;
    size_t length;
} appendfs_change;

/* ---- reads */

/* Whether the inode exists. */
appendfs_yes_no appendfs_exists(const uint8_t *img, size_t img_len, uint64_t ino);

/* The type of the inode. */
appendfs_type appendfs_file_type(const uint8_t *img, size_t img_len, uint64_t ino);

/* The attributes of the inode. */
appendfs_attr_answer appendfs_attr(const uint8_t *img, size_t img_len, uint64_t ino);

/* The parent of a directory. */
appendfs_inode appendfs_parent_dir_inode(const uint8_t *img, size_t img_len, uint64_t ino);

/* The inode that a name leads to in a directory. */
appendfs_inode appendfs_lookup_child(const uint8_t *img, size_t img_len, uint64_t ino, const uint8_t *name, size_t name_len);

/* The text of a link. */
appendfs_text appendfs_read_link(const uint8_t *img, size_t img_len, uint64_t ino);

/* Whether there is a link's text. */
appendfs_yes_no appendfs_has_link(const uint8_t *img, size_t img_len, uint64_t ino);

/* The value of an extended attribute. */
appendfs_text appendfs_get_xattr(const uint8_t *img, size_t img_len, uint64_t ino, const uint8_t *name, size_t name_len);

/* Whether there is such an attribute. */
appendfs_yes_no appendfs_has_xattr(const uint8_t *img, size_t img_len, uint64_t ino, const uint8_t *name, size_t name_len);

/* The names of a directory, rising by bytes. */
appendfs_rows appendfs_list_directory(const uint8_t *img, size_t img_len, uint64_t ino, appendfs_entry *rows, size_t rows_len);

/* The names of the extended attributes, rising by bytes. */
appendfs_rows appendfs_list_xattrs(const uint8_t *img, size_t img_len, uint64_t ino, appendfs_entry *rows, size_t rows_len);

/* ---- changes of the live layer */

/* Puts a record in the place of the live one. `delta` is the record from its code on; a tombstone is refused. */
appendfs_change appendfs_insert_new_node(const uint8_t *img, size_t img_len, uint64_t ino, const uint8_t *delta, size_t delta_len,
                                         uint8_t *target, size_t target_len);

/* Puts a tombstone in the place of the live record. */
appendfs_change appendfs_tombstone(const uint8_t *img, size_t img_len, uint64_t ino, uint8_t *target, size_t target_len);

/* Adds a name that leads to `inode` to the live directory delta of `ino`. */
appendfs_change appendfs_add_dir_entry(const uint8_t *img, size_t img_len, uint64_t ino, const uint8_t *name, size_t name_len,
                                       uint64_t inode, int64_t seconds, uint32_t nanos, uint8_t *target, size_t target_len);

/* Removes a name, in the live directory delta of `ino`. */
appendfs_change appendfs_remove_dir_entry(const uint8_t *img, size_t img_len, uint64_t ino, const uint8_t *name, size_t name_len,
                                          int64_t seconds, uint32_t nanos, uint8_t *target, size_t target_len);

/* Sets the parent in the live directory delta of `ino`. */
appendfs_change appendfs_update_dir_parent(const uint8_t *img, size_t img_len, uint64_t ino, uint64_t parent, uint8_t *target,
                                           size_t target_len);

/* Merges into the live delta. `delta` is a mask and its fields. */
appendfs_change appendfs_update_attr_delta(const uint8_t *img, size_t img_len, uint64_t ino, const uint8_t *delta, size_t delta_len,
                                           uint8_t *target, size_t target_len);

/* Holds the directory deltas of the layer at a position against the layers below. Live is at the number of batches. */
appendfs_change appendfs_normalize_directory_deltas(const uint8_t *img, size_t img_len, uint64_t position, uint8_t *target,
                                                    size_t target_len);

/* ---- changes of the queue and the base */

/* Makes live the last batch, unless the queue has reached one of the limits: batches, their bytes, their operations. */
appendfs_change appendfs_freeze_live(const uint8_t *img, size_t img_len, uint64_t depth, uint64_t bytes, uint64_t operations,
                                     int64_t seconds, uint32_t nanos, uint8_t *target, size_t target_len);

/* Applies the front batch to the base. The batch stays in the queue. */
appendfs_change appendfs_fold_entries(const uint8_t *img, size_t img_len, uint8_t *target, size_t target_len);

/* Drops the front batch, whose id it must be. */
appendfs_change appendfs_pop_flushed_batch(const uint8_t *img, size_t img_len, uint64_t batch_id, uint8_t *target, size_t target_len);

/* Stages one operation more, and so many bytes. */
appendfs_change appendfs_record_mutation(const uint8_t *img, size_t img_len, uint64_t additional_bytes, uint8_t *target,
                                         size_t target_len);

/* Requests a freeze, for a reason from 1 to 5; 0 takes a request back. */
appendfs_change appendfs_request(const uint8_t *img, size_t img_len, uint64_t reason, uint8_t *target, size_t target_len);

/* Folds every layer into the base, and drops non-directories with 0 links. */
appendfs_change appendfs_snapshot_all(const uint8_t *img, size_t img_len, uint8_t *target, size_t target_len);

#ifdef __cplusplus
}
#endif

#endif
