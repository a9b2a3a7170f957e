/* The product of two numbers of 128 bits, which LLVM calls on wasm64. Nothing of it is proved. */
typedef unsigned long u64;
typedef __int128 i128;
typedef unsigned __int128 u128;

enum { HALF = 32 };
static const u64 LOW = 0xffffffff;

static u128 wide(u64 a, u64 b)
{
    u64 low = (a & LOW) * (b & LOW), left = (a & LOW) * (b >> HALF), right = (a >> HALF) * (b & LOW), high = (a >> HALF) * (b >> HALF);
    u64 middle = (low >> HALF) + (left & LOW) + (right & LOW);
    high += (left >> HALF) + (right >> HALF) + (middle >> HALF);
    return ((u128)high << 64) | ((middle << HALF) | (low & LOW));
}

i128 __multi3(i128 a, i128 b)
{
    u64 a_low = (u64)a, a_high = (u64)((u128)a >> 64), b_low = (u64)b, b_high = (u64)((u128)b >> 64);
    return (i128)(wide(a_low, b_low) + ((u128)(a_high * b_low + a_low * b_high) << 64));
}
