/*
 * The root image of document 01: a file is made in it, frozen, folded and popped, and read at each point. Every answer is compared
 * with what document 01 says; the program ends with status 1 if one differs.
 */
#include <stdio.h>
#include <string.h>

#include "appendfs_layers.h"

/* "Root on paper" */
static const uint8_t ROOT[] = {0x01, 0x01, 0x00, 0xED, 0x03, 0x02, 0x00, 0x00, 0x00, 0x00, 0x00, 0x00,
                               0x00, 0x00, 0x00, 0x01, 0x00, 0x00, 0x00, 0x01, 0x00, 0x00, 0x00};

/* A record of a file: its code (kind 1, and 1), mode 640 (octal) and the attribute user.blade = 2, and the size 300. */
static const uint8_t FILE_DELTA[] = {0x02, 0x81, 0x02, 0xA0, 0x03, 0x01, 0x0A, 'u', 's', 'e', 'r', '.', 'b', 'l',
                                     'a',  'd',  'e',  0x01, 0x01, '2',  0x01, 0xAC, 0x02};

/* A record of a link to "offset", with no fields. */
static const uint8_t LINK_DELTA[] = {0x03, 0x00, 0x01, 0x06, 'o', 'f', 'f', 's', 'e', 't'};

static int failures;

static void expect(int holds, const char *what) {
    if (!holds) {
        printf("not so: %s\n", what);
        failures++;
    }
}

/* The store: the image, and a target that the next change writes. */
static uint8_t images[2][APPENDFS_IMAGE_MAX];
static size_t length;
static int which;

static const uint8_t *image(void) { return images[which]; }
static uint8_t *target(void) { return images[1 - which]; }

/* A change was made: its target is the image now. */
static void made(appendfs_change c, const char *what) {
    expect(c.refusal == 0, what);
    if (c.refusal == 0) {
        which = 1 - which;
        length = c.length;
    }
}

static const uint8_t *bytes(const char *text) { return (const uint8_t *)text; }

/* What is shown of the file, the link and the root: the same before, between and after freeze, fold and pop. */
static void read_all(const char *when) {
    printf("%s: %zu bytes\n", when, length);
    appendfs_inode child = appendfs_lookup_child(image(), length, 1, bytes("offset"), 6);
    expect(child.refusal == 0 && child.found && child.inode == 2, "offset leads to 2");
    expect(!appendfs_lookup_child(image(), length, 1, bytes("other"), 5).found, "other leads nowhere");
    expect(appendfs_lookup_child(image(), length, 1, bytes(""), 0).refusal == APPENDFS_BAD_NAME, "an empty name is refused");

    appendfs_attr_answer file = appendfs_attr(image(), length, 2);
    expect(file.refusal == 0 && file.found, "2 has attributes");
    expect(file.attr.ino == 2 && file.attr.kind == APPENDFS_REGULAR_FILE, "2 is a file");
    expect(file.attr.perm == 0640 && file.attr.nlink == 1 && file.attr.size == 300, "mode, links and size of 2");
    appendfs_attr_answer root = appendfs_attr(image(), length, 1);
    expect(root.attr.perm == 0755 && root.attr.nlink == 2 && root.attr.size == 0, "mode, links and size of 1");
    expect(root.attr.mtime.seconds == -5 && root.attr.mtime.nanos == 999999999, "the root was changed at -5 s");
    expect(root.attr.atime.seconds == 0 && root.attr.atime.nanos == 0, "the root was not accessed");

    appendfs_text value = appendfs_get_xattr(image(), length, 2, bytes("user.blade"), 10);
    expect(value.refusal == 0 && value.found && value.length == 1 && image()[value.start] == '2', "user.blade is 2");
    expect(appendfs_has_xattr(image(), length, 2, bytes("user.blade"), 10).yes, "there is user.blade");
    appendfs_text link = appendfs_read_link(image(), length, 3);
    expect(link.found && link.length == 6 && memcmp(image() + link.start, "offset", 6) == 0, "3 links to offset");
    expect(appendfs_has_link(image(), length, 3).yes && !appendfs_has_link(image(), length, 2).yes, "3 is a link, 2 is none");

    appendfs_entry rows[2] = {{7, 7, 7}, {7, 7, 7}};
    appendfs_rows names = appendfs_list_directory(image(), length, 1, rows, 2);
    expect(names.refusal == 0 && names.found && names.count == 1, "the root has one entry");
    expect(rows[0].inode == 2 && rows[0].length == 6 && memcmp(image() + rows[0].start, "offset", 6) == 0, "it is offset");
    expect(rows[1].start == 7 && rows[1].length == 7 && rows[1].inode == 7, "the row behind it stays");
    expect(appendfs_list_directory(image(), length, 1, rows, 0).refusal == APPENDFS_NO_ROOM, "no row is too few");
    expect(!appendfs_list_directory(image(), length, 2, rows, 2).found, "a file has no listing");
    names = appendfs_list_xattrs(image(), length, 2, rows, 2);
    expect(names.found && names.count == 1 && rows[0].inode == 0 && rows[0].length == 10, "2 has one attribute");
    expect(memcmp(image() + rows[0].start, "user.blade", 10) == 0, "it is user.blade");

    expect(appendfs_exists(image(), length, 2).yes && !appendfs_exists(image(), length, 9).yes, "2 exists, 9 doesn't");
    expect(appendfs_file_type(image(), length, 3).kind == APPENDFS_SYMLINK, "3 is a link");
    expect(appendfs_parent_dir_inode(image(), length, 1).inode == 1, "the parent of 1 is 1");
    expect(!appendfs_parent_dir_inode(image(), length, 2).found, "2 has no parent");
}

static void make_files(void) {
    made(appendfs_insert_new_node(image(), length, 2, FILE_DELTA, sizeof FILE_DELTA, target(), APPENDFS_IMAGE_MAX), "insert 2");
    made(appendfs_insert_new_node(image(), length, 3, LINK_DELTA, sizeof LINK_DELTA, target(), APPENDFS_IMAGE_MAX), "insert 3");
    made(appendfs_add_dir_entry(image(), length, 1, bytes("other"), 5, 2, 7, 0, target(), APPENDFS_IMAGE_MAX), "add other");
    made(appendfs_remove_dir_entry(image(), length, 1, bytes("other"), 5, 8, 0, target(), APPENDFS_IMAGE_MAX), "remove other");
    made(appendfs_add_dir_entry(image(), length, 1, bytes("offset"), 6, 2, -5, 999999999, target(), APPENDFS_IMAGE_MAX), "add offset");
    made(appendfs_record_mutation(image(), length, 300, target(), APPENDFS_IMAGE_MAX), "note 300 bytes");
    made(appendfs_request(image(), length, APPENDFS_FSYNC, target(), APPENDFS_IMAGE_MAX), "request Fsync");
}

static void refusals(void) {
    appendfs_change c = appendfs_fold_entries(image(), length, target(), APPENDFS_IMAGE_MAX);
    expect(c.refusal == APPENDFS_NO_BATCH && c.length == 0, "there is nothing to fold");
    c = appendfs_pop_flushed_batch(image(), length, 1, target(), APPENDFS_IMAGE_MAX);
    expect(c.refusal == APPENDFS_NO_BATCH, "there is nothing to pop");
    c = appendfs_freeze_live(image(), length, 16, 1000, 1000, 9, 1000000000, target(), APPENDFS_IMAGE_MAX);
    expect(c.refusal == APPENDFS_BAD_ARGUMENT, "a second has no more nanoseconds");
    memset(target(), 0xA5, 16);
    c = appendfs_tombstone(image(), length, 2, target(), 16);
    expect(c.refusal == APPENDFS_NO_ROOM && c.length == 0, "16 bytes are too few");
    for (int i = 0; i < 16; i++) {
        expect(target()[i] == 0xA5, "a refusal writes nothing");
    }
    expect(appendfs_exists(image(), length - 1, 2).refusal == APPENDFS_IMAGE_BROKEN, "without its last byte it is no image");
    expect(appendfs_exists(image(), APPENDFS_IMAGE_MAX, 2).refusal == APPENDFS_IMAGE_BROKEN, "nothing follows an image");
}

int main(void) {
    memcpy(images[0], ROOT, sizeof ROOT);
    length = sizeof ROOT;
    expect(appendfs_exists(image(), length, 1).yes, "there is a root");

    make_files();
    read_all("live");
    refusals();

    made(appendfs_normalize_directory_deltas(image(), length, 0, target(), APPENDFS_IMAGE_MAX), "normalise live");
    read_all("normalised");
    made(appendfs_freeze_live(image(), length, 16, 1000, 1000, 9, 0, target(), APPENDFS_IMAGE_MAX), "freeze");
    read_all("frozen");
    expect(appendfs_freeze_live(image(), length, 16, 1000, 1000, 9, 0, target(), APPENDFS_IMAGE_MAX).refusal == APPENDFS_LIVE_EMPTY,
           "live is empty");
    made(appendfs_fold_entries(image(), length, target(), APPENDFS_IMAGE_MAX), "fold");
    read_all("folded");
    expect(appendfs_pop_flushed_batch(image(), length, 2, target(), APPENDFS_IMAGE_MAX).refusal == APPENDFS_WRONG_BATCH, "2 isn't the front");
    made(appendfs_pop_flushed_batch(image(), length, 1, target(), APPENDFS_IMAGE_MAX), "pop");
    read_all("popped");
    made(appendfs_snapshot_all(image(), length, target(), APPENDFS_IMAGE_MAX), "snapshot");
    read_all("snapshot");

    made(appendfs_tombstone(image(), length, 2, target(), APPENDFS_IMAGE_MAX), "remove 2");
    expect(!appendfs_exists(image(), length, 2).yes, "2 is gone");
    printf("%s\n", failures == 0 ? "ok" : "failed");
    return failures == 0 ? 0 : 1;
}
