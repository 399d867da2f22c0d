/* The product of 128 bits, which LLVM calls by name: the kit has it in a library for another target. */
typedef unsigned long long word;
typedef unsigned __int128 wide;

wide __multi3(wide x, wide y);

/* The low 128 bits: of the low halves four products of 32 bits, and of each high half one of 64. */
wide __multi3(wide x, wide y)
{
    word low = (word)x, other = (word)y;
    word a = low & 0xffffffff, b = low >> 32, c = other & 0xffffffff, d = other >> 32;
    word first = a * c, second = b * c + (first >> 32), third = a * d + (second & 0xffffffff);
    word high = b * d + (second >> 32) + (third >> 32) + low * (word)(y >> 64) + (word)(x >> 64) * other;
    return (wide)high << 64 | (third << 32 | (first & 0xffffffff));
}
