/* Lays 1,080 lines of 1,920 columns in v210 and takes every code back: the proved functions of crate exports against the
   same loop in plain C, in one process.

   Ours (tiwaneb_v210_lay): makes the packing, blanks the image (wipes the fixed bits, writes the rest code at each site),
   then for each line tests that every code is admitted, and writes each code at its site.
   (tiwaneb_v210_carry): the same, then takes each code back through the frame.

   C, site by site: clears the image, writes the rest code at each site, then for each line tests that every code is 4 to
   1,019, and writes each code: it works out the code's first bit, reads the 32 bits about it, changes ten, writes them back.
   Taking: the first bit again, and ten bits of the 32. Nothing is worked out for more than one site at a time. */
#define _GNU_SOURCE
#include <stddef.h>
#include <stdint.h>
#include <stdio.h>
#include <stdlib.h>
#include <string.h>
#include <time.h>

enum { WIDTH = 1920, HEIGHT = 1080, ROUNDS = 25 };

/* a slice is a pointer and a length */
uint32_t tiwaneb_v210_lay(uint32_t width, uint32_t height, const uint16_t *codes, size_t code_count, uint8_t *image, size_t length);
uint32_t tiwaneb_v210_carry(uint32_t width, uint32_t height, const uint16_t *codes, size_t code_count, uint8_t *image,
                            size_t length, uint16_t *back, size_t back_count);

/* ---- plain C */
enum { BITS = 10, REST_LUMA = 64, REST_CHROMA = 512, LOWEST = 4, HIGHEST = 1019 };
static const uint8_t LUMA[6] = {10, 32, 52, 74, 96, 116}, CB[3] = {0, 42, 84}, CR[3] = {20, 64, 106};

static size_t row_bytes(uint32_t width) { return 128 * (size_t)((width + 47) / 48); }

static uint32_t columns(uint32_t width, int component) { return component == 0 ? width : width / 2; }

/* the first bit of a site's code */
static size_t where(uint32_t width, int component, uint32_t column, uint32_t line) {
  size_t group;
  unsigned start;
  if (component == 0) {
    group = column / 6;
    start = LUMA[column % 6];
  } else {
    group = column / 3;
    start = (component == 1 ? CB : CR)[column % 3];
  }
  return 8 * (line * row_bytes(width) + 16 * group) + start;
}

static unsigned take(const uint8_t *image, size_t bit) {
  uint32_t window;
  memcpy(&window, image + bit / 8, 4);
  return window >> (bit % 8) & ((1u << BITS) - 1);
}

static void put(uint8_t *image, size_t bit, unsigned code) {
  uint32_t window, mask = ((1u << BITS) - 1) << (bit % 8);
  memcpy(&window, image + bit / 8, 4);
  window = (window & ~mask) | (uint32_t)code << (bit % 8);
  memcpy(image + bit / 8, &window, 4);
}

static void c_blank(uint32_t width, uint32_t height, uint8_t *image) {
  memset(image, 0, row_bytes(width) * height);
  for (uint32_t line = 0; line < height; line++)
    for (int component = 0; component < 3; component++)
      for (uint32_t column = 0; column < columns(width, component); column++)
        put(image, where(width, component, column, line), component == 0 ? REST_LUMA : REST_CHROMA);
}

static int c_admitted(const uint16_t *codes, size_t count) {
  for (size_t i = 0; i < count; i++)
    if (codes[i] < LOWEST || codes[i] > HIGHEST)
      return 0;
  return 1;
}

__attribute__((noinline)) static uint32_t c_lay(uint32_t width, uint32_t height, const uint16_t *codes, uint8_t *image) {
  uint32_t come = 0;
  c_blank(width, height, image);
  for (uint32_t line = 0; line < height; line++, codes += 2 * width) {
    if (!c_admitted(codes, 2 * width))
      continue;
    const uint16_t *next = codes;
    for (int component = 0; component < 3; component++)
      for (uint32_t column = 0; column < columns(width, component); column++)
        put(image, where(width, component, column, come), *next++);
    come++;
  }
  return come;
}

__attribute__((noinline)) static void c_take(uint32_t width, uint32_t height, const uint8_t *image, uint16_t *back) {
  for (uint32_t line = 0; line < height; line++)
    for (int component = 0; component < 3; component++)
      for (uint32_t column = 0; column < columns(width, component); column++)
        *back++ = (uint16_t)take(image, where(width, component, column, line));
}

/* ---- measuring */
static double now(void) {
  struct timespec t;
  clock_gettime(CLOCK_THREAD_CPUTIME_ID, &t);
  return t.tv_sec + 1e-9 * t.tv_nsec;
}

static int by_size(const void *a, const void *b) {
  double x = *(const double *)a, y = *(const double *)b;
  return (x > y) - (x < y);
}

static double median(double *times) {
  qsort(times, ROUNDS, sizeof *times, by_size);
  return times[ROUNDS / 2];
}

static void fail(const char *what) {
  printf("FAILED: %s\n", what);
  exit(1);
}

static void *room(size_t bytes, int filled) {
  void *p = malloc(bytes);
  if (!p)
    fail("no memory");
  return memset(p, filled, bytes);
}

static void report(const char *what, double ours, double c) {
  printf("%-28s ours %8.2f ms   C %8.2f ms   ours / C %5.2f\n", what, 1e3 * ours, 1e3 * c, ours / c);
}

int main(int argc, char **argv) {
  /* from the command line, so that neither compiler knows the size */
  uint32_t width = argc > 2 ? (uint32_t)atoi(argv[1]) : WIDTH, height = argc > 2 ? (uint32_t)atoi(argv[2]) : HEIGHT;
  size_t count = 2 * (size_t)width * height, length = row_bytes(width) * height;
  uint16_t *codes = room(2 * count, 0), *back_ours = room(2 * count, 1), *back_c = room(2 * count, 2);
  uint8_t *image_ours = room(length, 1), *image_c = room(length, 2);

  uint32_t seed = 1;
  for (size_t i = 0; i < count; i++) {
    seed = seed * 1664525 + 1013904223;
    codes[i] = LOWEST + (seed >> 8) % (HIGHEST - LOWEST + 1);
  }

  /* both do the same, or there is nothing to compare */
  if (tiwaneb_v210_carry(width, height, codes, count, image_ours, length, back_ours, count) != height)
    fail("ours: not every line came");
  if (c_lay(width, height, codes, image_c) != height)
    fail("C: not every line came");
  c_take(width, height, image_c, back_c);
  if (memcmp(image_ours, image_c, length))
    fail("the images differ");
  if (memcmp(back_ours, codes, 2 * count) || memcmp(back_c, codes, 2 * count))
    fail("the codes do not come back");
  memset(image_ours, 0xff, length);
  if (tiwaneb_v210_lay(width, height, codes, count, image_ours, length) != height || memcmp(image_ours, image_c, length))
    fail("the image laid alone differs");

  double lay_ours[ROUNDS], lay_c[ROUNDS], both_ours[ROUNDS], both_c[ROUNDS], take_ours[ROUNDS], take_c[ROUNDS];
  uint32_t sum = 0;
  for (int r = 0; r < ROUNDS; r++) {
    double t0 = now();
    sum += tiwaneb_v210_lay(width, height, codes, count, image_ours, length);
    double t1 = now();
    sum += c_lay(width, height, codes, image_c);
    double t2 = now();
    sum += tiwaneb_v210_carry(width, height, codes, count, image_ours, length, back_ours, count);
    double t3 = now();
    sum += c_lay(width, height, codes, image_c);
    c_take(width, height, image_c, back_c);
    double t4 = now();
    c_take(width, height, image_c, back_c);
    double t5 = now();
    lay_ours[r] = t1 - t0;
    lay_c[r] = t2 - t1;
    both_ours[r] = t3 - t2;
    both_c[r] = t4 - t3;
    /* a frame lives within one call: taking is what carry does beyond lay */
    take_ours[r] = both_ours[r] - lay_ours[r];
    take_c[r] = t5 - t4;
  }
  if (sum != 4u * ROUNDS * height || memcmp(image_ours, image_c, length) || memcmp(back_ours, back_c, 2 * count))
    fail("a timed round differs");

  printf("v210, %u by %u, %zu codes; thread CPU time, medians of %d rounds\n", width, height, count, ROUNDS);
  report("begin and lay every line", median(lay_ours), median(lay_c));
  report("take every code back", median(take_ours), median(take_c));
  report("both together", median(both_ours), median(both_c));
  return 0;
}
