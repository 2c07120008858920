/* cck.h: keys of compiler caches, for callers in C, C++ and other languages that call C.
 *
 * Each function is an export of the static library of crates/cck_c. docs/C.md says how it is built
 * and linked, what is proved of it, and how callers in several threads use it.
 *
 * What a caller must uphold, and nothing checks:
 *
 * - Bytes and arrays are passed as a pointer and a length. No pointer is null, also where the length
 *   is 0: it then points to anything. No array has 2^63 bytes or more.
 * - What a call writes overlaps nothing else that is passed to it, and no other thread reads or
 *   writes it during the call. Other threads may read what a call reads.
 * - No call is made in a signal handler, or in the child process of a fork if the process that was
 *   forked had more than one thread.
 *
 * What every call keeps: it takes memory from malloc and realloc alone, and frees all of it before
 * it returns. It keeps no pointer to what is passed, reads no file, prints nothing, takes no lock and
 * ends no process. If the status is not CCK_DONE, it has written nothing. */
#ifndef CCK_H
#define CCK_H

#include <stddef.h>
#include <stdint.h>

#ifdef __cplusplus
extern "C" {
#endif

/* The statuses that calls return. */
enum cck_status {
  CCK_DONE = 0,      /* the call has done what it says */
  CCK_MEMORY = 1,    /* malloc or realloc returned a null pointer */
  CCK_LENGTH = 2,    /* the buffer or array is too short */
  CCK_LANGUAGE = 3,  /* no language has this name */
  CCK_DIGEST = 4,    /* a digest is not UTF-8 */
  CCK_FORMAT = 5,    /* the bytes are an entry in another format */
  CCK_ENTRY = 6,     /* the bytes begin as an entry does, and are the text of no entry */
  CCK_UNCHANGED = 7, /* nothing is cut out: the argument or text is its own result */
  CCK_INDEX = 8      /* the entry has no result of this index */
};

/* Any bytes. */
struct cck_bytes {
  const uint8_t *bytes;
  size_t bytes_length;
};

/* A variable of the environment. */
struct cck_variable {
  const uint8_t *name;
  size_t name_length;
  const uint8_t *value;
  size_t value_length;
};

/* ---- keys of objects */

/* The number of digits of a key. */
#define CCK_KEY_LENGTH 64

/* The parts of which the key of an object is made. docs/FORMATS.md says how they are hashed. */
struct cck_key_params {
  /* The hex digest of the compiler. It is hashed as it is passed, and must be UTF-8. */
  const uint8_t *compiler_digest;
  size_t compiler_digest_length;
  /* The name of the language, as `c` or `c++`. */
  const uint8_t *language;
  size_t language_length;
  /* The arguments of the compiler, in order. */
  const struct cck_bytes *arguments;
  size_t arguments_length;
  /* The hex digests of further files that the compiler reads. Each must be UTF-8. */
  const struct cck_bytes *extra_hashes;
  size_t extra_hashes_length;
  /* The variables of the environment, in order. Those that change a compiler's output are hashed. */
  const struct cck_variable *variables;
  size_t variables_length;
  /* The base directories, which are cut out of the arguments and of the text. */
  const struct cck_bytes *basedirs;
  size_t basedirs_length;
  /* The preprocessed text. */
  const uint8_t *text;
  size_t text_length;
  /* The hex digest of the assembler, UTF-8, if has_assembler is not 0. */
  const uint8_t *assembler_digest;
  size_t assembler_digest_length;
  uint8_t has_assembler;
  /* Not 0 if the compiler treats its inputs as C++. */
  uint8_t plusplus;
};

/* Writes the key of an object: 64 digits of 0 to 9 and a to f, with no null character after them.
 *
 * CCK_LANGUAGE: no language has the name. CCK_DIGEST: the digest of the compiler or of the assembler,
 * or an extra hash, is not UTF-8. Where both are so, it is CCK_LANGUAGE. CCK_MEMORY is returned for
 * neither of them. */
int32_t cck_object_key(const struct cck_key_params *params, uint8_t key[CCK_KEY_LENGTH]);

/* ---- time macros */

/* The number of the last bytes of a stream that a finder keeps. */
#define CCK_TAIL_LENGTH 12

/* The state of a finder of the macros __TIME__, __DATE__ and __TIMESTAMP__ in a stream. It may be
 * copied and stored. Each flag is 1 if the stream so far contains the macro, and else 0. The tail has
 * the last bytes of the stream, as many as length says. Any contents are the state of a finder: a
 * flag counts as set unless it is 0, and a length above 12 counts as 12. */
struct cck_finder {
  uint8_t found_time;
  uint8_t found_date;
  uint8_t found_timestamp;
  uint8_t length;
  uint8_t tail[CCK_TAIL_LENGTH];
};

/* Makes this the finder of an empty stream. */
void cck_finder_start(struct cck_finder *finder);

/* Searches the next piece of the stream. The flags do not depend on where the stream is cut. It takes
 * no memory. */
void cck_finder_push(struct cck_finder *finder, const uint8_t *piece, size_t piece_length);

/* ---- base directories */

/* Cuts the base directories out of an argument.
 *
 * CCK_DONE: something is cut out. What remains is at the start of the buffer, and its length, which is
 * less than that of the argument, in written. The rest of the buffer stays as it is.
 * CCK_UNCHANGED: nothing is cut out. The argument is its own result, and nothing is written.
 * CCK_LENGTH: the buffer is shorter than the argument. It must have the argument's length also where
 * less remains. It takes no memory. */
int32_t cck_strip_argument(const uint8_t *argument, size_t argument_length,
                           const struct cck_bytes *basedirs, size_t basedirs_length,
                           uint8_t *buffer, size_t buffer_length, size_t *written);

/* The same for a preprocessed text, where other places may begin a base directory. It takes memory if
 * there are base directories: CCK_MEMORY.
 *
 *     size_t written;
 *     int32_t status = cck_strip_text(text, length, basedirs, count, buffer, length, &written);
 *     if (status == CCK_DONE)
 *       use(buffer, written);
 *     else if (status == CCK_UNCHANGED)
 *       use(text, length); */
int32_t cck_strip_text(const uint8_t *text, size_t text_length,
                       const struct cck_bytes *basedirs, size_t basedirs_length,
                       uint8_t *buffer, size_t buffer_length, size_t *written);

/* ---- entries of the preprocessor cache */

/* How much an entry has. */
struct cck_entry_counts {
  size_t results;  /* the number of its results */
  size_t includes; /* the number of the included files of all results together */
};

/* Writes the counts of the entry whose text these bytes are. No bytes are the entry without results.
 *
 * CCK_FORMAT: the first byte is not 2. CCK_ENTRY: the first byte is 2, and the bytes are the text of
 * no entry. CCK_MEMORY, but not if the bytes name more results than they can hold. */
int32_t cck_entry_counts(const uint8_t *bytes, size_t bytes_length, struct cck_entry_counts *counts);

/* A result of an entry: the key of an object, and the files that were included for it. */
struct cck_entry_result {
  /* The key, inside the bytes that were passed. It is UTF-8. */
  const uint8_t *key;
  size_t key_length;
  /* The number of its included files. */
  size_t includes;
};

/* Writes the results of the entry to the start of the array, in the order of the bytes of their keys,
 * and their number to count. The rest of the array stays as it is.
 *
 * CCK_LENGTH: the array is shorter than the number of results, which cck_entry_counts writes.
 * CCK_FORMAT, CCK_ENTRY and CCK_MEMORY as of cck_entry_counts.
 *
 * The pointers in the array must not be null before the call either; they may all point to the
 * bytes. */
int32_t cck_entry_results(const uint8_t *bytes, size_t bytes_length, struct cck_entry_result *results,
                          size_t results_length, size_t *count);

/* A time, in UTC, or none. */
struct cck_entry_time {
  int64_t seconds;      /* the whole seconds since 1970-01-01 00:00:00, rounded down */
  uint32_t nanoseconds; /* the nanoseconds after them, at most 999999999 */
  uint8_t is_known;     /* 1, or 0 if there is no time; the other fields are 0 then */
};

/* What an entry records of an included file. */
struct cck_entry_include {
  /* The path, inside the bytes that were passed. It is any bytes. */
  const uint8_t *path;
  size_t path_length;
  /* The recorded digest of the file, inside the bytes that were passed. It is UTF-8. */
  const uint8_t *digest;
  size_t digest_length;
  /* The size in bytes. */
  uint64_t size;
  /* The times of the last modification and of the last change, if they are to be compared. */
  struct cck_entry_time modified;
  struct cck_entry_time changed;
};

/* Writes what the entry records of the files that one result included to the start of the array, in
 * their order, and their number to count. The rest of the array stays as it is. The index of a result
 * is its place among those that cck_entry_results writes, from 0 on.
 *
 * CCK_INDEX: the entry has no result of this index. CCK_LENGTH: the array is shorter than the number
 * of the included files, which cck_entry_results writes. CCK_FORMAT, CCK_ENTRY and CCK_MEMORY as of
 * cck_entry_counts.
 *
 * The pointers in the array must not be null before the call either; they may all point to the
 * bytes. */
int32_t cck_entry_includes(const uint8_t *bytes, size_t bytes_length, size_t index,
                           struct cck_entry_include *includes, size_t includes_length, size_t *count);

/* ---- line markers */

/* The kinds of marks. */
enum cck_mark_kind {
  CCK_NAME = 0,     /* the name that a line marker gives */
  CCK_REFUSAL = 1,  /* .incbin and a quote: the assembler may include a file that no marker names */
  CCK_MALFORMED = 2 /* a line marker that neither has a name nor ends its line without one */
};

/* A mark of a preprocessed text. */
struct cck_mark {
  /* The name, inside the text that was passed. Its length is 0 for another kind than CCK_NAME. */
  const uint8_t *name;
  size_t name_length;
  uint8_t kind; /* an enum cck_mark_kind */
  /* 1 if the line marker says that the file is a system header, else 0. */
  uint8_t is_system;
};

/* The rest of a text, whose marks are not read yet. */
struct cck_unread_text {
  const uint8_t *text;
  size_t text_length;
  /* Not 0 if a line starts at the first byte, as at the start of a whole text. */
  uint8_t starts_line;
};

/* Writes the next marks of the text to the start of the array, as many as it has room for, and
 * returns their number. If that is less than the array has room for, the text has no more marks.
 * Nothing follows a mark that is no name. The rest of the array stays as it is. The text is replaced
 * by its rest after these marks, for the next call. It takes no memory.
 *
 * The pointers in the array must not be null before the call either; they may all point to the
 * text. */
size_t cck_marks(struct cck_unread_text *unread, struct cck_mark *marks, size_t marks_length);

#ifdef __cplusplus
}
#endif
#endif
