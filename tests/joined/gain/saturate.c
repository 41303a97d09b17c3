static int least = -2048, most = 2047;

/* the number high * 256 + low, over 16, held within 16 bits */
int saturate(int high, unsigned low)
{
    if (high > most)
        return 32767;
    if (high < least)
        return -32767 - 1;
    return high << 4 | low >> 4;
}
