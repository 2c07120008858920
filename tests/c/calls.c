/* Makes the calls that standard input asks for, a line each, and prints what each returns and writes.
   tests/c/vectors.py writes the lines. A field is two digits a byte; an item of a list ends in `,`,
   and a variable is a name, `=` and a value. Before its result is printed, a call is repeated with
   each of its requests for memory failing in turn: the status has to be CCK_MEMORY then, and nothing
   may be written. Linked with --wrap=malloc and --wrap=realloc. */
#include "cck.h"
#include <stdio.h>
#include <stdlib.h>
#include <string.h>

enum { MOST_FIELDS = 16, MARKS_AT_ONCE = 3 };

static const uint8_t nothing[1] = {0};

/* ---- requests for memory that fail */

void *__real_malloc(size_t size);
void *__real_realloc(void *old, size_t size);
void *__wrap_malloc(size_t size);
void *__wrap_realloc(void *old, size_t size);

/* The number of requests, the number of the one that fails, and how many failed. */
static size_t requests, refused_at, refused;

static int is_refused(void) {
  requests++;
  if (requests != refused_at)
    return 0;
  refused++;
  return 1;
}

void *__wrap_malloc(size_t size) { return is_refused() ? NULL : __real_malloc(size); }

void *__wrap_realloc(void *old, size_t size) {
  return is_refused() ? NULL : __real_realloc(old, size);
}

static void *room(size_t size) {
  void *made = __real_malloc(size ? size : 1);
  if (!made) {
    fprintf(stderr, "calls: out of memory\n");
    exit(2);
  }
  return made;
}

/* ---- fields */

static void wrong(const char *what) {
  fprintf(stderr, "calls: %s\n", what);
  exit(2);
}

static unsigned digit(char c) {
  const char *digits = "0123456789abcdef", *found = c ? strchr(digits, c) : NULL;
  if (!found)
    wrong("a field has another character than a digit");
  return (unsigned)(found - digits);
}

/* The bytes of the digits, in memory of exactly their number. */
static struct cck_bytes bytes_of(const char *digits, size_t length) {
  struct cck_bytes made;
  uint8_t *bytes = room(length / 2);
  size_t i;
  for (i = 0; i < length / 2; i++)
    bytes[i] = (uint8_t)(digit(digits[2 * i]) * 16 + digit(digits[2 * i + 1]));
  made.bytes = bytes;
  made.bytes_length = length / 2;
  return made;
}

static void free_bytes(struct cck_bytes made) { free((void *)made.bytes); }

struct list {
  struct cck_bytes *items;
  size_t length;
};

static struct list list_of(const char *field) {
  struct list made;
  const char *at;
  size_t i = 0;
  made.length = 0;
  for (at = field; *at; at++)
    made.length += *at == ',';
  made.items = room(made.length * sizeof *made.items);
  for (at = field; *at; i++) {
    size_t length = strcspn(at, ",");
    made.items[i] = bytes_of(at, length);
    at += length + 1;
  }
  return made;
}

static void free_list(struct list made) {
  size_t i;
  for (i = 0; i < made.length; i++)
    free_bytes(made.items[i]);
  free(made.items);
}

/* The items of the list, two to a variable. */
static struct cck_variable *variables_of(struct list list) {
  struct cck_variable *made = room(list.length / 2 * sizeof *made);
  size_t i;
  for (i = 0; i < list.length / 2; i++) {
    made[i].name = list.items[2 * i].bytes;
    made[i].name_length = list.items[2 * i].bytes_length;
    made[i].value = list.items[2 * i + 1].bytes;
    made[i].value_length = list.items[2 * i + 1].bytes_length;
  }
  return made;
}

static void print_bytes(const uint8_t *bytes, size_t length) {
  size_t i;
  for (i = 0; i < length; i++)
    printf("%02x", bytes[i]);
}

/* ---- calls */

/* A call over fields that were read: it returns a status, and writes to `written` of `size` bytes. */
struct call {
  int32_t (*make)(const void *given, void *written);
  const void *given;
  void *written;
  size_t size;
};

static void fill(void *written, size_t size) { memset(written, 0xa5, size); }

/* Repeats the call with each request for memory failing in turn, until none is, and returns the
   status of the last. */
static int32_t make(struct call call) {
  uint8_t *before = room(call.size);
  int32_t status;
  size_t at, earlier;
  fill(before, call.size);
  for (at = 1;; at++) {
    fill(call.written, call.size);
    requests = 0;
    refused_at = at;
    earlier = refused;
    status = call.make(call.given, call.written);
    refused_at = 0;
    if (refused == earlier)
      break;
    if (status != CCK_MEMORY)
      wrong("a call whose memory was refused returned another status");
    if (memcmp(before, call.written, call.size) != 0)
      wrong("a call whose memory was refused has written");
  }
  if (status != CCK_DONE && memcmp(before, call.written, call.size) != 0)
    wrong("a call that returned an error has written");
  free(before);
  return status;
}

static int32_t make_key(const void *given, void *written) {
  return cck_object_key(given, written);
}

/* The same call with each digest in turn no UTF-8. */
static void call_with_wrong_digests(struct call call, struct cck_key_params params) {
  static const uint8_t text[] = {'a', 0xc3};
  static const struct cck_bytes extra[] = {{(const uint8_t *)"ab", 2}, {text, sizeof text}};
  struct cck_key_params wrong_params = params;
  call.given = &wrong_params;
  wrong_params.compiler_digest = text;
  wrong_params.compiler_digest_length = sizeof text;
  if (make(call) != CCK_DIGEST)
    wrong("the digest of a compiler was accepted that is not UTF-8");
  wrong_params = params;
  wrong_params.extra_hashes = extra;
  wrong_params.extra_hashes_length = 2;
  if (make(call) != CCK_DIGEST)
    wrong("an extra hash was accepted that is not UTF-8");
  wrong_params = params;
  wrong_params.assembler_digest = text;
  wrong_params.assembler_digest_length = sizeof text;
  wrong_params.has_assembler = 255;
  if (make(call) != CCK_DIGEST)
    wrong("the digest of an assembler was accepted that is not UTF-8");
}

static void call_key(char **field) {
  struct cck_bytes digest = bytes_of(field[0], strlen(field[0]));
  struct cck_bytes language = bytes_of(field[1], strlen(field[1]));
  struct list arguments = list_of(field[2]), extra = list_of(field[3]), names = list_of(field[4]);
  struct list basedirs = list_of(field[5]), assembler = list_of(field[6]);
  struct cck_bytes text = bytes_of(field[8], strlen(field[8]));
  struct cck_variable *variables = variables_of(names);
  uint8_t *key = room(CCK_KEY_LENGTH);
  struct cck_key_params params;
  struct call call;
  int32_t status;
  memset(&params, 0, sizeof params);
  params.compiler_digest = digest.bytes;
  params.compiler_digest_length = digest.bytes_length;
  params.language = language.bytes;
  params.language_length = language.bytes_length;
  params.arguments = arguments.items;
  params.arguments_length = arguments.length;
  params.extra_hashes = extra.items;
  params.extra_hashes_length = extra.length;
  params.variables = variables;
  params.variables_length = names.length / 2;
  params.basedirs = basedirs.items;
  params.basedirs_length = basedirs.length;
  params.text = text.bytes;
  params.text_length = text.bytes_length;
  params.assembler_digest = assembler.length ? assembler.items[0].bytes : nothing;
  params.assembler_digest_length = assembler.length ? assembler.items[0].bytes_length : 0;
  params.has_assembler = assembler.length != 0;
  params.plusplus = field[7][0] == '1';
  call.make = make_key;
  call.given = &params;
  call.written = key;
  call.size = CCK_KEY_LENGTH;
  status = make(call);
  printf("%d ", (int)status);
  print_bytes(key, CCK_KEY_LENGTH);
  putchar('\n');
  if (status == CCK_DONE)
    call_with_wrong_digests(call, params);
  free(key);
  free(variables);
  free_list(assembler);
  free_list(basedirs);
  free_list(names);
  free_list(extra);
  free_list(arguments);
  free_bytes(text);
  free_bytes(language);
  free_bytes(digest);
}

struct strip {
  int32_t (*strip)(const uint8_t *, size_t, const struct cck_bytes *, size_t, uint8_t *, size_t,
                   size_t *);
  struct cck_bytes text;
  struct list basedirs;
  size_t buffer_length;
};

/* The number of bytes first, and the buffer after it. */
static int32_t make_strip(const void *given, void *written) {
  const struct strip *strip = given;
  size_t *length = written;
  return strip->strip(strip->text.bytes, strip->text.bytes_length, strip->basedirs.items,
                      strip->basedirs.length, (uint8_t *)(length + 1), strip->buffer_length, length);
}

/* With a buffer of the input's length, and again with one that is a byte shorter. */
static void call_strip(char **field, int is_argument) {
  struct strip strip;
  struct call call;
  size_t *written, i;
  uint8_t *buffer;
  int32_t status;
  strip.strip = is_argument ? cck_strip_argument : cck_strip_text;
  strip.basedirs = list_of(field[0]);
  strip.text = bytes_of(field[1], strlen(field[1]));
  strip.buffer_length = strip.text.bytes_length;
  call.size = sizeof *written + strip.buffer_length;
  written = room(call.size);
  buffer = (uint8_t *)(written + 1);
  call.make = make_strip;
  call.given = &strip;
  call.written = written;
  status = make(call);
  printf("%d ", (int)status);
  if (status == CCK_DONE) {
    print_bytes(buffer, *written);
    for (i = *written; i < strip.buffer_length; i++)
      if (buffer[i] != 0xa5)
        wrong("the rest of the buffer was written");
  }
  if (strip.buffer_length > 0) {
    strip.buffer_length--;
    if (make(call) != CCK_LENGTH)
      wrong("a buffer that is too short was accepted");
  }
  putchar('\n');
  free(written);
  free_bytes(strip.text);
  free_list(strip.basedirs);
}

/* The bytes of an entry, the index of a result, and how much room its array has. */
struct entry {
  struct cck_bytes bytes;
  size_t index;
  size_t room;
};

static int32_t make_counts(const void *given, void *written) {
  const struct entry *entry = given;
  return cck_entry_counts(entry->bytes.bytes, entry->bytes.bytes_length, written);
}

/* The number first, and the array after it. */
static int32_t make_results(const void *given, void *written) {
  const struct entry *entry = given;
  size_t *count = written;
  return cck_entry_results(entry->bytes.bytes, entry->bytes.bytes_length, (void *)(count + 1),
                           entry->room, count);
}

static int32_t make_includes(const void *given, void *written) {
  const struct entry *entry = given;
  size_t *count = written;
  return cck_entry_includes(entry->bytes.bytes, entry->bytes.bytes_length, entry->index,
                            (void *)(count + 1), entry->room, count);
}

/* Makes a call that writes that many items of this size, and again with room for one less. */
static size_t *filled(struct call call, struct entry entry, size_t length, size_t item) {
  size_t *count;
  call.given = &entry;
  call.size = sizeof *count + length * item;
  call.written = count = room(call.size);
  if (length > 0) {
    entry.room = length - 1;
    if (make(call) != CCK_LENGTH)
      wrong("an array that is too short was accepted");
  }
  entry.room = length;
  if (make(call) != CCK_DONE || *count != length)
    wrong("an entry has another number of items than it was said to have");
  return count;
}

static void print_text(const char *text) { print_bytes((const uint8_t *)text, strlen(text)); }

static void print_number(uint64_t number, const char *after) {
  char text[32];
  snprintf(text, sizeof text, "%llu", (unsigned long long)number);
  print_text(text);
  print_text(after);
}

static void print_time(struct cck_entry_time time) {
  char text[64];
  snprintf(text, sizeof text, " %llds+%luns", (long long)time.seconds, (unsigned long)time.nanoseconds);
  print_text(time.is_known ? text : " -");
}

static void print_includes(struct entry entry, size_t length) {
  struct call call;
  size_t *count, i;
  const struct cck_entry_include *includes;
  call.make = make_includes;
  count = filled(call, entry, length, sizeof *includes);
  includes = (const void *)(count + 1);
  for (i = 0; i < length; i++) {
    print_text("\ninclude ");
    print_bytes(includes[i].path, includes[i].path_length);
    print_text(" \"");
    print_bytes(includes[i].digest, includes[i].digest_length);
    print_text("\" ");
    print_number(includes[i].size, "");
    print_time(includes[i].modified);
    print_time(includes[i].changed);
  }
  free(count);
}

/* A line for each result and each include. */
static void print_results(struct entry entry, struct cck_entry_counts counts) {
  struct call call;
  size_t *count, i, includes = 0;
  const struct cck_entry_result *results;
  call.make = make_results;
  count = filled(call, entry, counts.results, sizeof *results);
  results = (const void *)(count + 1);
  for (i = 0; i < counts.results; i++) {
    print_text("\nresult ");
    print_bytes(results[i].key, results[i].key_length);
    entry.index = i;
    print_includes(entry, results[i].includes);
    includes += results[i].includes;
  }
  if (includes != counts.includes)
    wrong("the includes of all results are not as many as an entry has");
  free(count);
}

/* The other two calls return the status of the first, or the index is past the last result. */
static void call_entry(char **field) {
  struct entry entry;
  struct cck_entry_counts counts;
  struct call call;
  size_t nothing_written;
  int32_t status;
  entry.bytes = bytes_of(field[0], strlen(field[0]));
  entry.room = 0;
  entry.index = 0;
  call.make = make_counts;
  call.given = &entry;
  call.written = &counts;
  call.size = sizeof counts;
  status = make(call);
  printf("%d ", (int)status);
  if (status == CCK_DONE) {
    print_number(counts.results, " results, ");
    print_number(counts.includes, " includes");
    print_results(entry, counts);
    entry.index = counts.results;
  }
  call.written = &nothing_written;
  call.size = sizeof nothing_written;
  call.make = make_includes;
  if (make(call) != (status == CCK_DONE ? CCK_INDEX : status))
    wrong("the includes of an entry have another status");
  call.make = make_results;
  if (status != CCK_DONE && make(call) != status)
    wrong("the results of an entry have another status");
  putchar('\n');
  free_bytes(entry.bytes);
}

static void call_find(char **field) {
  struct list pieces = list_of(field[0]);
  struct cck_finder *finder = room(sizeof *finder);
  size_t i;
  fill(finder, sizeof *finder);
  cck_finder_start(finder);
  for (i = 0; i < pieces.length; i++)
    cck_finder_push(finder, pieces.items[i].bytes, pieces.items[i].bytes_length);
  printf("%d%d%d\n", finder->found_time, finder->found_date, finder->found_timestamp);
  free(finder);
  free_list(pieces);
}

static void call_marks(char **field) {
  struct cck_bytes text = bytes_of(field[0], strlen(field[0]));
  struct cck_mark *marks = room(MARKS_AT_ONCE * sizeof *marks);
  struct cck_unread_text unread;
  size_t count, i;
  unread.text = text.bytes;
  unread.text_length = text.bytes_length;
  unread.starts_line = 1;
  do {
    fill(marks, MARKS_AT_ONCE * sizeof *marks);
    for (i = 0; i < MARKS_AT_ONCE; i++)
      marks[i].name = nothing;
    count = cck_marks(&unread, marks, MARKS_AT_ONCE);
    for (i = 0; i < count; i++) {
      printf("%d%d", marks[i].kind, marks[i].is_system);
      print_bytes(marks[i].name, marks[i].name_length);
      putchar(',');
    }
    for (i = count; i < MARKS_AT_ONCE; i++)
      if (marks[i].name != nothing || marks[i].kind != 0xa5)
        wrong("the rest of the array was written");
  } while (count == MARKS_AT_ONCE);
  if (cck_marks(&unread, marks, MARKS_AT_ONCE) != 0)
    wrong("a text had marks after its last");
  putchar('\n');
  free(marks);
  free_bytes(text);
}

/* ---- lines */

static void do_line(char *line) {
  char *field[MOST_FIELDS];
  size_t fields = 0;
  char *at = line;
  while (fields < MOST_FIELDS) {
    char *end = strchr(at, '\t');
    field[fields++] = at;
    if (!end)
      break;
    *end = 0;
    at = end + 1;
  }
  if (strcmp(field[0], "key") == 0 && fields == 10)
    call_key(field + 1);
  else if (strcmp(field[0], "strip_text") == 0 && fields == 3)
    call_strip(field + 1, 0);
  else if (strcmp(field[0], "strip_argument") == 0 && fields == 3)
    call_strip(field + 1, 1);
  else if (strcmp(field[0], "entry") == 0 && fields == 2)
    call_entry(field + 1);
  else if (strcmp(field[0], "find") == 0 && fields == 2)
    call_find(field + 1);
  else if (strcmp(field[0], "marks") == 0 && fields == 2)
    call_marks(field + 1);
  else
    wrong("a line asks for no call");
}

int main(void) {
  size_t size = 1 << 16, length = 0;
  char *line = room(size);
  int c;
  while ((c = getchar()) != EOF) {
    if (c == '\n') {
      line[length] = 0;
      do_line(line);
      length = 0;
      continue;
    }
    if (length + 1 == size) {
      char *longer = room(2 * size);
      memcpy(longer, line, size);
      free(line);
      line = longer;
      size *= 2;
    }
    line[length++] = (char)c;
  }
  free(line);
  fprintf(stderr, "%lu requests for memory refused\n", (unsigned long)refused);
  return 0;
}
