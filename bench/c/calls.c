/* Times one round of calls of cck.h on the text on standard input, and prints the name, the nanoseconds
   and the result of each. With the name of a call as argument it makes this one alone, and with another
   word none. bench/c.sh runs it beside bench/c/main.rt.in, which prints the same. */
#define _POSIX_C_SOURCE 199309L
#include "cck.h"
#include <stdio.h>
#include <stdlib.h>
#include <string.h>
#include <time.h>

#define BYTES(text) (const uint8_t *)(text), sizeof(text) - 1

static const struct cck_bytes no_bytes[1] = {{BYTES("")}};
static const struct cck_variable no_variables[1] = {{BYTES(""), BYTES("")}};
static const struct cck_bytes some[] = {{BYTES("/usr/include/linux/")}};
static const struct cck_bytes none[] = {{BYTES("/home/user/project/")}};

static double now(void) {
  struct timespec t;
  clock_gettime(CLOCK_MONOTONIC, &t);
  return (double)t.tv_sec * 1e9 + (double)t.tv_nsec;
}

static void fail(void) {
  fprintf(stderr, "a call failed\n");
  exit(1);
}

static void time_key(const uint8_t *text, size_t length) {
  struct cck_key_params params = {BYTES("abcd"), BYTES("c"), no_bytes, 0, no_bytes, 0, no_variables, 0,
                                  no_bytes, 0, NULL, 0, BYTES(""), 0, 0};
  uint8_t key[CCK_KEY_LENGTH];
  double start;
  params.text = text;
  params.text_length = length;
  start = now();
  if (cck_object_key(&params, key) != CCK_DONE)
    fail();
  printf("key %.0f %.*s\n", now() - start, CCK_KEY_LENGTH, (const char *)key);
}

static void time_finder(const uint8_t *text, size_t length) {
  struct cck_finder finder;
  double start = now();
  size_t at;
  cck_finder_start(&finder);
  for (at = 0; at < length; at += 131072)
    cck_finder_push(&finder, text + at, length - at < 131072 ? length - at : 131072);
  printf("finder %.0f %s\n", now() - start,
         finder.found_time || finder.found_date || finder.found_timestamp ? "true" : "false");
}

static void time_strip(const char *name, const struct cck_bytes *basedirs, const uint8_t *text,
                       size_t length, uint8_t *buffer) {
  size_t written = length;
  double start = now();
  int32_t status = cck_strip_text(text, length, basedirs, 1, buffer, length, &written);
  double taken = now() - start;
  if (status != CCK_DONE && status != CCK_UNCHANGED)
    fail();
  printf("%s %.0f %lu\n", name, taken, (unsigned long)written);
}

enum { ARGUMENTS = 100, BASEDIRS = 1000 };

/* The bytes of a text with a number in it, in memory of their length that is never freed. */
static struct cck_bytes numbered(const char *before, int number, const char *after) {
  char text[64];
  struct cck_bytes made;
  made.bytes_length = (size_t)snprintf(text, sizeof text, "%s%d%s", before, number, after);
  made.bytes = malloc(made.bytes_length);
  if (!made.bytes)
    fail();
  memcpy((void *)made.bytes, text, made.bytes_length);
  return made;
}

/* Strips a hundred arguments, of which every other one has a base directory. */
static void time_arguments(const char *name, size_t basedirs_length, size_t rounds) {
  struct cck_bytes arguments[ARGUMENTS], basedirs[BASEDIRS];
  uint8_t buffer[64];
  size_t written, kept = 0, round, i;
  double start;
  for (i = 0; i < ARGUMENTS; i++)
    arguments[i] = i % 2 ? numbered("-DLIBRARY=", (int)i, "") : numbered("-I/usr/include/library", (int)i, "");
  basedirs[0] = numbered("/usr/include/library", 0, "");
  basedirs[0].bytes_length = strlen("/usr/include/");
  for (i = 1; i < BASEDIRS; i++)
    basedirs[i] = numbered("/usr/share/", (int)i, "/");
  start = now();
  for (round = 0; round < rounds; round++)
    for (i = 0; i < ARGUMENTS; i++) {
      int32_t status = cck_strip_argument(arguments[i].bytes, arguments[i].bytes_length, basedirs,
                                          basedirs_length, buffer, sizeof buffer, &written);
      if (status == CCK_DONE)
        kept += written;
      else if (status == CCK_UNCHANGED)
        kept += arguments[i].bytes_length;
      else
        fail();
    }
  printf("%s %.0f %lu\n", name, now() - start, (unsigned long)kept);
}

/* Whether the call of this name is made. */
static int is_made(int words, char **word, const char *name) {
  return words < 2 || strcmp(word[1], name) == 0;
}

int main(int words, char **word) {
  size_t room = (size_t)1 << 27, length, i;
  uint8_t *text = malloc(room), *buffer = malloc(room);
  if (!text || !buffer)
    fail();
  length = fread(text, 1, room, stdin);
  /* Each page of the buffer is there before it is timed. */
  for (i = 0; i < length; i++)
    buffer[i] = 1;
  if (is_made(words, word, "key"))
    time_key(text, length);
  if (is_made(words, word, "finder"))
    time_finder(text, length);
  if (is_made(words, word, "strip_some"))
    time_strip("strip_some", some, text, length, buffer);
  if (is_made(words, word, "strip_none"))
    time_strip("strip_none", none, text, length, buffer);
  if (is_made(words, word, "arguments_1"))
    time_arguments("arguments_1", 1, 1000);
  if (is_made(words, word, "arguments_1000"))
    time_arguments("arguments_1000", BASEDIRS, 10);
  return 0;
}
