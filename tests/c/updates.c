/* Paths inserted and deleted: the image that is left and every byte of its buffer, what refuses a call and in which order, written out here from E11 of
 * docs/02-change-requests.md; a path inserted and deleted again; and a card filled path by path, each way about. */
#include "buffers.h"

static struct bytes paths_image, path, want;
static struct buffer paths, before;
static size_t paths_len, used;
static int count;

typedef struct drunquill_updated job(uint8_t *, size_t, size_t, const uint8_t *, size_t);

static void fail(const char *name, const char *what) {
    printf("tests/built/c: %s: %s\n", name, what);
    exit(1);
}

/* Paths in a buffer of 60 bytes, and a path. */
static void set(const char *const *texts, const char *text) {
    image(&paths_image, texts);
    used = paths_image.len;
    paths_len = 60;
    path.len = 0;
    add_string(&path, text);
    want.len = 0;
}

/* The call in the buffer as it stands: the image wanted in front, zeros behind a shorter one up to the used length given, all else as before. */
static void call(const char *name, job *f, unsigned number) {
    before = paths;
    struct drunquill_updated a = f(lent(&paths), paths_len, used, path.at, path.len);
    if (a.number != number) {
        printf("tests/built/c: %s: number %u, not %u\n", name, a.number, number);
        exit(1);
    }
    if (a.place != 0) fail(name, "place");
    if (a.used != (number ? used : want.len)) fail(name, "used length");
    if (!number && want.len < used) memset(lent(&before), 0, used);
    if (!number) memcpy(lent(&before), want.at, want.len);
    if (!same(&paths, &before)) fail(name, "paths");
    if (!number) used = a.used;
    count++;
}

static void fresh(const char *name, job *f, unsigned number) {
    lend(&paths, paths_len, &paths_image, 5);
    call(name, f, number);
}

#define PATHS(...) ((const char *const[]){__VA_ARGS__, NULL})
#define NO_PATHS ((const char *const[]){NULL})

static void gives(job *f, const char *const *texts, const char *text, const char *const *left) {
    set(texts, text);
    image(&want, left);
    fresh(text, f, 0);
    set(texts, text);
    image(&want, left);
    paths_len = want.len > used ? want.len : used;
    fresh(text, f, 0);
}

static void images(void) {
    gives(drunquill_insert_path, NO_PATHS, "b", PATHS("b"));
    gives(drunquill_insert_path, PATHS("b", "d"), "a", PATHS("a", "b", "d"));
    gives(drunquill_insert_path, PATHS("b", "d"), "c/x", PATHS("b", "c/x", "d"));
    gives(drunquill_insert_path, PATHS("b", "d"), "d ", PATHS("b", "d", "d "));
    gives(drunquill_insert_path, PATHS("b", "d"), "\xff\x01", PATHS("b", "d", "\xff\x01"));
    gives(drunquill_delete_path, PATHS("b"), "b", NO_PATHS);
    gives(drunquill_delete_path, PATHS("a", "b", "d"), "a", PATHS("b", "d"));
    gives(drunquill_delete_path, PATHS("b", "c/x", "d"), "c/x", PATHS("b", "d"));
    gives(drunquill_delete_path, PATHS("b", "d", "d "), "d ", PATHS("b", "d"));
}

static void refuses(const char *name, unsigned inserted, unsigned deleted) {
    fresh(name, drunquill_insert_path, inserted);
    fresh(name, drunquill_delete_path, deleted);
}

/* 4 for the image or a used length beyond the buffer, 4 for the path, 24, 21 */
static void in_order(void) {
    set(PATHS("d", "b"), "d");
    refuses("paths out of order", DRUNQUILL_BAD_PATHS, DRUNQUILL_BAD_PATHS);
    set(PATHS("b", "d"), "d");
    used = paths_len + 1;
    refuses("used length beyond the buffer", DRUNQUILL_BAD_PATHS, DRUNQUILL_BAD_PATHS);
    used = 0;
    refuses("no image", DRUNQUILL_BAD_PATHS, DRUNQUILL_BAD_PATHS);
    used = paths_image.len - 1;
    refuses("an image cut short", DRUNQUILL_BAD_PATHS, DRUNQUILL_BAD_PATHS);
    set(PATHS("b", "d"), "");
    refuses("an empty path", DRUNQUILL_BAD_PATHS, DRUNQUILL_BAD_PATHS);
    set(PATHS("b", "d"), "d");
    add(&path, "\0", 1);
    paths_len = used;
    refuses("a zero byte in a path", DRUNQUILL_BAD_PATHS, DRUNQUILL_BAD_PATHS);
    set(PATHS("b", "d"), "d");
    paths_len = used;
    fresh("a path that is there, and no room", drunquill_insert_path, DRUNQUILL_BAD_PATH);
    set(PATHS("b", "d"), "c");
    fresh("a path that is not there", drunquill_delete_path, DRUNQUILL_BAD_PATH);
    paths_len = used + 2;
    fresh("one byte too few", drunquill_insert_path, DRUNQUILL_OUTPUT_ROOM);
    set(PATHS("b", "d"), "");
    repeat(&path, "c", 65536);
    paths_len = ROOM;
    refuses("a path of 65,536 bytes", DRUNQUILL_OUTPUT_ROOM, DRUNQUILL_BAD_PATH);
}

/* Inserted and deleted again: the image that was there, and zeros behind it up to the longer one's end. */
static void back(void) {
    set(PATHS("b", "d"), "c");
    image(&want, PATHS("b", "c", "d"));
    fresh("inserted", drunquill_insert_path, 0);
    want = paths_image;
    call("and deleted again", drunquill_delete_path, 0);
}

/* A card of 32,768 bytes and some beyond: paths of 5 bytes, from the last to the first, till there is no room; then deleted in turn. */
static void card(void) {
    char text[8];
    set(NO_PATHS, "");
    paths_len = DRUNQUILL_PATHS_MAX + 10;
    lend(&paths, paths_len, &paths_image, 5);
    int n = 9999, most = (DRUNQUILL_PATHS_MAX - 1) / 7;
    want = paths_image;
    for (; 9999 - n < most; n--) {
        snprintf(text, sizeof text, "p%04d", n);
        path.len = 0;
        add_string(&path, text);
        memmove(want.at + 8, want.at + 1, want.len - 1);
        want.at[1] = 0, want.at[2] = 5;
        memcpy(want.at + 3, text, 5);
        want.len += 7;
        call(text, drunquill_insert_path, 0);
    }
    path.at[0] = 'q';
    call("a full card", drunquill_insert_path, DRUNQUILL_OUTPUT_ROOM);
    path.at[0] = 'p';
    for (n++; n <= 9999; n++) {
        snprintf(text, sizeof text, "p%04d", n);
        path.len = 0;
        add_string(&path, text);
        memmove(want.at + 1, want.at + 8, want.len - 8);
        want.len -= 7;
        call(text, drunquill_delete_path, 0);
    }
}

int main(void) {
    images();
    in_order();
    back();
    card();
    printf("c: %d calls that insert or delete a path, every byte of the buffer\n", count);
}
