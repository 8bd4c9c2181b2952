/* What LLVM calls in a module that no C library is linked to: not proved. */
typedef __SIZE_TYPE__ size_t;

void *memcpy(void *to, const void *from, size_t count) {
  unsigned char *a = to;
  const unsigned char *b = from;
  while (count--) *a++ = *b++;
  return to;
}

void *memmove(void *to, const void *from, size_t count) {
  unsigned char *a = to;
  const unsigned char *b = from;
  if (a < b) return memcpy(to, from, count);
  while (count--) a[count] = b[count];
  return to;
}

void *memset(void *to, int byte, size_t count) {
  unsigned char *a = to;
  while (count--) *a++ = (unsigned char)byte;
  return to;
}

int memcmp(const void *one, const void *other, size_t count) {
  const unsigned char *a = one, *b = other;
  for (; count--; a++, b++)
    if (*a != *b) return *a - *b;
  return 0;
}

typedef unsigned __int128 wide;
typedef unsigned long long half;

/* The product of two numbers of 128 bits, in parts of 32 bits, so that it doesn't call itself. */
wide __multi3(wide a, wide b) {
  half a_low = (half)a, a_high = (half)(a >> 64), b_low = (half)b, b_high = (half)(b >> 64), mask = 0xffffffffull;
  half ll = (a_low & mask) * (b_low & mask), lh = (a_low & mask) * (b_low >> 32);
  half hl = (a_low >> 32) * (b_low & mask), hh = (a_low >> 32) * (b_low >> 32);
  half middle = (ll >> 32) + (lh & mask) + (hl & mask);
  half low = (ll & mask) | (middle << 32);
  half high = hh + (lh >> 32) + (hl >> 32) + (middle >> 32) + a_low * b_high + a_high * b_low;
  return ((wide)high << 64) | low;
}
