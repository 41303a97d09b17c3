/* The bits of the line that are fed back, and the parity of four bits. */
unsigned masks[4] = {0x4002, 0x9, 0x220u, 0x1021};
static int odd[16] = {0, 1, 1, 0, 1, 0, 0, 1, 1, 0, 0, 1, 0, 1, 1, 0};

unsigned parity(unsigned word)
{
    return odd[word & 15] ^ odd[word >> 4 & 15] ^ odd[word >> 8 & 15] ^ odd[word >> 12];
}
