// What compiled code calls by name where WebAssembly has no instruction for it: numbers of 128 bits, and bytes that are
// copied, set and compared. Nothing proves this file: it stands where a compiler's own run-time library stands elsewhere.
// It is compiled with -fno-builtin, so that no loop here becomes a call of the function that it is in.
typedef unsigned long long u64;
typedef unsigned __int128 u128;
typedef __int128 i128;
typedef unsigned char u8;

static u128 joined(u64 high, u64 low) {
    union { u64 halves[2]; u128 whole; } it = {{low, high}};
    return it.whole;
}

static u64 low_of(u128 it) {
    return (u64)it;
}

static u64 high_of(u128 it) {
    union { u128 whole; u64 halves[2]; } parts = {it};
    return parts.halves[1];
}

// The product, by four products of halves of 32 bits.
u128 __multi3(u128 x, u128 y) {
    const u64 mask = 0xffffffff;
    u64 a = low_of(x), b = low_of(y);
    u64 low = (a & mask) * (b & mask);
    u64 middle = (a >> 32) * (b & mask) + (low >> 32);
    u64 other = (a & mask) * (b >> 32) + (middle & mask);
    u64 high = (a >> 32) * (b >> 32) + (middle >> 32) + (other >> 32);
    high += high_of(x) * b + a * high_of(y);
    return joined(high, (other << 32) | (low & mask));
}

u128 __ashlti3(u128 x, int by) {
    u64 high = high_of(x), low = low_of(x);
    if (by == 0) return x;
    if (by >= 64) return joined(low << (by - 64), 0);
    return joined(high << by | low >> (64 - by), low << by);
}

u128 __lshrti3(u128 x, int by) {
    u64 high = high_of(x), low = low_of(x);
    if (by == 0) return x;
    if (by >= 64) return joined(0, high >> (by - 64));
    return joined(high >> by, low >> by | high << (64 - by));
}

u128 __ashrti3(u128 x, int by) {
    u64 high = high_of(x), low = low_of(x);
    u64 sign = (u64)((long long)high >> 63);
    if (by == 0) return x;
    if (by >= 64) return joined(sign, (u64)((long long)high >> (by - 64)));
    return joined((u64)((long long)high >> by), low >> by | high << (64 - by));
}

void *memcpy(void *to, const void *from, u64 size) {
    u8 *a = to;
    const u8 *b = from;
    for (u64 at = 0; at < size; at++) a[at] = b[at];
    return to;
}

void *memmove(void *to, const void *from, u64 size) {
    u8 *a = to;
    const u8 *b = from;
    if (a <= b) {
        for (u64 at = 0; at < size; at++) a[at] = b[at];
    } else {
        for (u64 at = size; at > 0; at--) a[at - 1] = b[at - 1];
    }
    return to;
}

void *memset(void *to, int value, u64 size) {
    u8 *a = to;
    for (u64 at = 0; at < size; at++) a[at] = (u8)value;
    return to;
}

int memcmp(const void *first, const void *second, u64 size) {
    const u8 *a = first, *b = second;
    for (u64 at = 0; at < size; at++) {
        if (a[at] != b[at]) return a[at] < b[at] ? -1 : 1;
    }
    return 0;
}

int bcmp(const void *first, const void *second, u64 size) {
    return memcmp(first, second, size);
}
