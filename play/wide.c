/* What clang calls for numbers of 128 bits, which wasm64 has no instructions for: shifts and the product. */
typedef __UINT64_TYPE__ uint64_t;
typedef unsigned __int128 wide;

static uint64_t low(wide number)
{
    return (uint64_t)number;
}

/* Taken from memory, as a shift would call what stands here. */
static uint64_t high(wide number)
{
    uint64_t halves[2];

    __builtin_memcpy(halves, &number, sizeof number);
    return halves[1];
}

static wide of(uint64_t low_half, uint64_t high_half)
{
    uint64_t halves[2] = {low_half, high_half};
    wide number;

    __builtin_memcpy(&number, halves, sizeof number);
    return number;
}

wide __ashlti3(wide number, int bits)
{
    if (bits == 0)
        return number;
    if (bits >= 64)
        return of(0, low(number) << (bits - 64));
    return of(low(number) << bits, high(number) << bits | low(number) >> (64 - bits));
}

wide __lshrti3(wide number, int bits)
{
    if (bits == 0)
        return number;
    if (bits >= 64)
        return of(high(number) >> (bits - 64), 0);
    return of(low(number) >> bits | high(number) << (64 - bits), high(number) >> bits);
}

/* By halves of 32 bits; what is above 128 bits is lost. */
wide __multi3(wide left, wide right)
{
    const uint64_t mask = 0xffffffff;
    uint64_t a = low(left) & mask, b = low(left) >> 32, c = low(right) & mask, d = low(right) >> 32;
    uint64_t low_low = a * c, low_high = a * d, high_low = b * c, high_high = b * d;
    uint64_t middle = (low_low >> 32) + (low_high & mask) + (high_low & mask);

    return of(
        (low_low & mask) | middle << 32,
        high_high + (low_high >> 32) + (high_low >> 32) + (middle >> 32) + low(left) * high(right) + high(left) * low(right));
}
