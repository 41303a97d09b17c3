static unsigned start = 0x4000;

unsigned root_bits(unsigned x)
{
    unsigned bit, root;

    root = 0;
    for (bit = start; bit; bit >>= 2) {
        if (x >= root + bit) {
            x -= root + bit;
            root = (root >> 1) + bit;
        } else {
            root >>= 1;
        }
    }
    return root;
}
