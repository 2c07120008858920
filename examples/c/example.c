/* Calls each function of cck.h. build.sh builds and runs it. */
#include "cck.h"
#include <stdio.h>
#include <string.h>

#define BYTES(text) (const uint8_t *)(text), sizeof(text) - 1
#define COUNT(array) (sizeof(array) / sizeof((array)[0]))

/* A pointer must not be null, also where a length is 0. */
static const struct cck_bytes no_bytes[1] = {{BYTES("")}};
static const struct cck_variable no_variables[1] = {{BYTES(""), BYTES("")}};

static int print_key(void) {
  const struct cck_bytes arguments[] = {{BYTES("a")}, {BYTES("b")}, {BYTES("c")}};
  struct cck_key_params params;
  uint8_t key[CCK_KEY_LENGTH];
  int32_t status;
  memset(&params, 0, sizeof params);
  params.compiler_digest = (const uint8_t *)"abcd";
  params.compiler_digest_length = 4;
  params.language = (const uint8_t *)"c";
  params.language_length = 1;
  params.arguments = arguments;
  params.arguments_length = COUNT(arguments);
  params.extra_hashes = no_bytes;
  params.variables = no_variables;
  params.basedirs = no_bytes;
  params.text = (const uint8_t *)"hello world";
  params.text_length = 11;
  params.assembler_digest = (const uint8_t *)"";
  status = cck_object_key(&params, key);
  if (status != CCK_DONE)
    return status;
  printf("key %.*s\n", CCK_KEY_LENGTH, (const char *)key);
  return 0;
}

static void print_macros(void) {
  struct cck_finder finder;
  cck_finder_start(&finder);
  cck_finder_push(&finder, BYTES("char *t = __TI"));
  cck_finder_push(&finder, BYTES("ME__;"));
  printf("time %d, date %d, timestamp %d\n", finder.found_time, finder.found_date,
         finder.found_timestamp);
}

static int print_stripped(void) {
  const struct cck_bytes basedirs[] = {{BYTES("/home/me/")}};
  static const uint8_t argument[] = "-I/home/me/include", text[] = "# 1 \"/home/me/main.c\"";
  static const uint8_t other[] = "# 1 \"/usr/include/stdio.h\"";
  uint8_t buffer[sizeof text + sizeof other];
  size_t written;
  int32_t status = cck_strip_argument(argument, sizeof argument - 1, basedirs, COUNT(basedirs),
                                      buffer, sizeof buffer, &written);
  if (status != CCK_DONE)
    return status;
  printf("argument %.*s\n", (int)written, (const char *)buffer);
  status = cck_strip_text(text, sizeof text - 1, basedirs, COUNT(basedirs), buffer, sizeof buffer,
                          &written);
  if (status != CCK_DONE)
    return status;
  printf("text %.*s\n", (int)written, (const char *)buffer);
  status = cck_strip_text(other, sizeof other - 1, basedirs, COUNT(basedirs), buffer, sizeof buffer,
                          &written);
  if (status != CCK_UNCHANGED)
    return status;
  printf("text %s, unchanged\n", (const char *)other);
  return 0;
}

/* The result `key` with one included file, /a, of 3 bytes. */
static const uint8_t entry[] =
    "\2\1\0\0\0\0\0\0\0\3\0\0\0\0\0\0\0key\1\0\0\0\0\0\0\0"
    "\2\0\0\0\0\0\0\0/a\1\0\0\0\0\0\0\0d\3\0\0\0\0\0\0\0"
    "\1\5\0\0\0\0\0\0\0\7\0\0\0\0";

static void print_include(const struct cck_entry_include *include) {
  printf("include %.*s, digest %.*s, %d bytes", (int)include->path_length, (const char *)include->path,
         (int)include->digest_length, (const char *)include->digest, (int)include->size);
  if (include->modified.is_known)
    printf(", modified at %d.%09d", (int)include->modified.seconds, (int)include->modified.nanoseconds);
  printf("\n");
}

static int print_entry(void) {
  struct cck_entry_counts counts;
  struct cck_entry_result results[1];
  struct cck_entry_include includes[1];
  size_t count;
  int32_t status = cck_entry_counts(entry, sizeof entry - 1, &counts);
  if (status != CCK_DONE)
    return status;
  printf("results %d, includes %d\n", (int)counts.results, (int)counts.includes);
  results[0].key = entry;
  status = cck_entry_results(entry, sizeof entry - 1, results, COUNT(results), &count);
  if (status != CCK_DONE)
    return status;
  printf("result %.*s\n", (int)results[0].key_length, (const char *)results[0].key);
  includes[0].path = includes[0].digest = entry;
  status = cck_entry_includes(entry, sizeof entry - 1, 0, includes, COUNT(includes), &count);
  if (status != CCK_DONE)
    return status;
  print_include(&includes[0]);
  return 0;
}

static void print_marks(void) {
  struct cck_unread_text unread = {BYTES("# 1 \"a.c\"\n# 1 \"stdio.h\" 1 3 4\nint x;\n"), 1};
  struct cck_mark marks[1];
  marks[0].name = unread.text;
  while (cck_marks(&unread, marks, COUNT(marks)) == COUNT(marks)) {
    if (marks[0].kind == CCK_NAME)
      printf("name %.*s%s\n", (int)marks[0].name_length, (const char *)marks[0].name,
             marks[0].is_system ? ", of a system header" : "");
  }
}

int main(void) {
  int status;
  print_macros();
  print_marks();
  if ((status = print_key()) != 0 || (status = print_stripped()) != 0
      || (status = print_entry()) != 0) {
    fprintf(stderr, "status %d\n", status);
    return 1;
  }
  return 0;
}
