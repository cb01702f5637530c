/* What the modes are measured against, in portable C and with OpenSSL. Each figure is the best of several runs.
 *
 *   tet-1  TET with AES-128 as a plain program has it: substitution table, bit-by-bit product
 *   tet-4  the same with round tables, and a product that takes four bits a turn from sixteen multiples: a good portable program
 *   xts    AES-128-XTS of OpenSSL, with the processor's AES instructions where it has them
 *
 * The three are told to agree where they must: tet-1 and tet-4 encipher alike. Prints lines as `bench` does:
 *   NAME SIZE encipher RATE MB/s
 */
#include <openssl/evp.h>
#include <stdint.h>
#include <stdio.h>
#include <string.h>
#include <time.h>

typedef unsigned __int128 block;

/* ---- bytes and blocks, the first byte the highest */

static block load(const uint8_t *p) {
  block b = 0;
  for (int i = 0; i < 16; i++) b = b << 8 | p[i];
  return b;
}

static void store(uint8_t *p, block b) {
  for (int i = 15; i >= 0; i--, b >>= 8) p[i] = (uint8_t)b;
}

/* ---- AES-128 */

static uint8_t sbox[256];
static uint32_t round_table[256];

static uint8_t byte_xtime(uint8_t a) { return (uint8_t)(a << 1 ^ (a >> 7) * 0x1b); }

static uint8_t byte_product(uint8_t a, uint8_t b) {
  uint8_t p = 0;
  for (; b; b >>= 1, a = byte_xtime(a))
    if (b & 1) p ^= a;
  return p;
}

static void make_tables(void) {
  for (int x = 0; x < 256; x++) {
    uint8_t inverse = 0;
    for (int y = 1; x && y < 256; y++)
      if (byte_product((uint8_t)x, (uint8_t)y) == 1) inverse = (uint8_t)y;
    uint8_t s = 0x63 ^ inverse;
    for (int k = 1; k < 5; k++) s ^= (uint8_t)(inverse << k | inverse >> (8 - k));
    sbox[x] = s;
    uint8_t twice = byte_xtime(s);
    round_table[x] = (uint32_t)twice << 24 | (uint32_t)s << 16 | (uint32_t)s << 8 | (uint8_t)(twice ^ s);
  }
}

typedef struct { uint32_t word[44]; } schedule;

static uint32_t substituted(uint32_t w) {
  return (uint32_t)sbox[w >> 24] << 24 | (uint32_t)sbox[w >> 16 & 255] << 16 | (uint32_t)sbox[w >> 8 & 255] << 8 | sbox[w & 255];
}

static void expand(schedule *k, const uint8_t *key) {
  uint8_t rcon = 1;
  for (int i = 0; i < 44; i++) {
    if (i < 4) {
      k->word[i] = (uint32_t)key[4 * i] << 24 | (uint32_t)key[4 * i + 1] << 16 | (uint32_t)key[4 * i + 2] << 8 | key[4 * i + 3];
      continue;
    }
    uint32_t t = k->word[i - 1];
    if (i % 4 == 0) {
      t = substituted(t << 8 | t >> 24) ^ (uint32_t)rcon << 24;
      rcon = byte_xtime(rcon);
    }
    k->word[i] = k->word[i - 4] ^ t;
  }
}

/* byte by byte, as the standard is written */
static block aes_plain(const schedule *k, block b) {
  uint8_t s[16], t[16];
  store(s, b);
  for (int i = 0; i < 16; i++) s[i] ^= (uint8_t)(k->word[i / 4] >> (24 - 8 * (i % 4)));
  for (int round = 1; round <= 10; round++) {
    for (int i = 0; i < 16; i++) t[i] = sbox[s[(i + 4 * (i % 4)) % 16]];
    for (int c = 0; c < 16; c += 4) {
      uint8_t all = t[c] ^ t[c + 1] ^ t[c + 2] ^ t[c + 3];
      for (int r = 0; r < 4; r++)
        s[c + r] = round < 10 ? (uint8_t)(t[c + r] ^ all ^ byte_xtime(t[c + r] ^ t[c + (r + 1) % 4])) : t[c + r];
    }
    for (int i = 0; i < 16; i++) s[i] ^= (uint8_t)(k->word[4 * round + i / 4] >> (24 - 8 * (i % 4)));
  }
  return load(s);
}

static uint32_t rotated(uint32_t w, int by) { return w >> by | w << (32 - by); }

/* with a round table */
static block aes_table(const schedule *k, block b) {
  uint32_t s[4], t[4];
  for (int i = 0; i < 4; i++) s[i] = (uint32_t)(b >> (96 - 32 * i)) ^ k->word[i];
  for (int round = 1; round < 10; round++) {
    for (int i = 0; i < 4; i++)
      t[i] = round_table[s[i] >> 24] ^ rotated(round_table[s[(i + 1) & 3] >> 16 & 255], 8) ^
             rotated(round_table[s[(i + 2) & 3] >> 8 & 255], 16) ^ rotated(round_table[s[(i + 3) & 3] & 255], 24) ^
             k->word[4 * round + i];
    memcpy(s, t, sizeof s);
  }
  block out = 0;
  for (int i = 0; i < 4; i++) {
    uint32_t w = (uint32_t)sbox[s[i] >> 24] << 24 | (uint32_t)sbox[s[(i + 1) & 3] >> 16 & 255] << 16 |
                 (uint32_t)sbox[s[(i + 2) & 3] >> 8 & 255] << 8 | sbox[s[(i + 3) & 3] & 255];
    out = out << 32 | (w ^ k->word[40 + i]);
  }
  return out;
}

/* ---- the ring of 16 bytes, modulo x^128 + x^7 + x^2 + x + 1 */

static block xtime(block a) { return a << 1 ^ (-(a >> 127) & 0x87); }

/* one bit a turn, masked */
static block product_by_bits(block a, block b) {
  block p = 0;
  for (int i = 127; i >= 0; i--) p = xtime(p) ^ (-(b >> i & 1) & a);
  return p;
}

typedef struct { block multiple[16]; } multiples;
static uint16_t folded[16];

static void make_multiples(multiples *m, block a) {
  m->multiple[0] = 0;
  m->multiple[1] = a;
  for (int i = 2; i < 16; i += 2) {
    m->multiple[i] = xtime(m->multiple[i / 2]);
    m->multiple[i + 1] = m->multiple[i] ^ a;
  }
  for (int i = 0; i < 16; i++) {
    folded[i] = 0;
    for (int j = 0; j < 4; j++)
      if (i >> j & 1) folded[i] ^= (uint16_t)(0x87 << j);
  }
}

/* four bits a turn */
static block product_by_fours(const multiples *m, block b) {
  block p = 0;
  for (int i = 124; i >= 0; i -= 4) p = p << 4 ^ folded[(unsigned)(p >> 124)] ^ m->multiple[b >> i & 15];
  return p;
}

/* ---- TET for whole blocks, with its hash key kept; the tweak is a sector number in 8 bytes */

typedef struct {
  schedule first, second;
  block tau, inverse;
  multiples of_tau, of_inverse;
} tet;

#define TET(NAME, AES, TIMES_TAU, TIMES_INVERSE)                                                     \
  static void NAME(const tet *t, uint64_t number, uint8_t *sector, int size) {                       \
    int m = size / 16;                                                                               \
    uint8_t last[16] = {0};                                                                          \
    for (int i = 0; i < 8; i++) last[i] = (uint8_t)(number >> (56 - 8 * i));                         \
    last[8] = 0x80;                                                                                  \
    block beta = AES(&t->first, xtime(xtime(AES(&t->first, (block)(8 * size)))) ^ load(last));       \
    block x = 0;                                                                                     \
    for (int i = 0; i < m; i++) { x ^= load(sector + 16 * i); x = TIMES_TAU; }                       \
    x = TIMES_INVERSE;                                                                               \
    block hash = x, offset = beta;                                                                   \
    x = 0;                                                                                           \
    for (int i = 0; i < m; i++, offset = xtime(offset)) {                                            \
      block q = AES(&t->second, load(sector + 16 * i) ^ hash ^ offset) ^ offset;                     \
      store(sector + 16 * i, q);                                                                     \
      x ^= q;                                                                                        \
      x = TIMES_TAU;                                                                                 \
    }                                                                                                \
    x = TIMES_INVERSE;                                                                               \
    for (int i = 0; i < m; i++) store(sector + 16 * i, load(sector + 16 * i) ^ x);                   \
  }

TET(tet_plain, aes_plain, product_by_bits(x, t->tau), product_by_bits(x, t->inverse))
TET(tet_tables, aes_table, product_by_fours(&t->of_tau, x), product_by_fours(&t->of_inverse, x))

static int make_tet(tet *t, const uint8_t *key, int size) {
  expand(&t->first, key);
  expand(&t->second, key + 16);
  t->tau = aes_table(&t->first, xtime(aes_table(&t->first, 0)));
  block sigma = 0, power = 1;
  for (int i = 0; i <= size / 16; i++, power = product_by_bits(power, t->tau)) sigma ^= power;
  /* 1/σ = σ^(2^128 - 2), the ring being a field */
  block inverse = 1, square = sigma;
  for (int i = 1; i < 128; i++) {
    square = product_by_bits(square, square);
    inverse = product_by_bits(inverse, square);
  }
  t->inverse = inverse;
  make_multiples(&t->of_tau, t->tau);
  make_multiples(&t->of_inverse, inverse);
  return product_by_bits(inverse, sigma) == 1;
}

/* ---- the clock */

static double now(void) {
  struct timespec t;
  clock_gettime(CLOCK_MONOTONIC, &t);
  return (double)t.tv_sec + 1e-9 * (double)t.tv_nsec;
}

enum { RUNS = 7 };

int main(void) {
  static const uint8_t key[32] = "one key of bytes and another key";
  static uint8_t sector[4096], other[4096];
  make_tables();
  for (int size = 512; size <= 4096; size *= 8) {
    tet t;
    if (!make_tet(&t, key, size)) return 1;
    memset(sector, 7, sizeof sector);
    memset(other, 7, sizeof other);
    tet_plain(&t, 9, sector, size);
    tet_tables(&t, 9, other, size);
    if (memcmp(sector, other, (size_t)size)) return 2;
    int times = (1 << 19) / size;
    double best[3] = {1e9, 1e9, 1e9};
    EVP_CIPHER_CTX *xts = EVP_CIPHER_CTX_new();
    uint8_t number[16] = {0};
    int written;
    if (!xts || !EVP_EncryptInit_ex(xts, EVP_aes_128_xts(), 0, key, number)) return 3;
    for (int run = 0; run < RUNS; run++) {
      double start = now();
      for (int i = 0; i < times; i++) tet_plain(&t, (uint64_t)i, sector, size);
      double time = now() - start;
      if (time < best[0]) best[0] = time;
      start = now();
      for (int i = 0; i < times; i++) tet_tables(&t, (uint64_t)i, sector, size);
      time = now() - start;
      if (time < best[1]) best[1] = time;
      start = now();
      for (int i = 0; i < 8 * times; i++) {
        number[0] = (uint8_t)i;
        EVP_EncryptInit_ex(xts, 0, 0, 0, number);
        EVP_EncryptUpdate(xts, sector, &written, sector, size);
      }
      time = (now() - start) / 8;
      if (time < best[2]) best[2] = time;
    }
    EVP_CIPHER_CTX_free(xts);
    const char *name[3] = {"tet-1", "tet-4", "xts"};
    for (int i = 0; i < 3; i++) printf("%s %d encipher %.1f MB/s\n", name[i], size, (double)times * size / best[i] / 1e6);
  }
  return 0;
}
