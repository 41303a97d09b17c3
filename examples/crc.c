/* The check word of a message: the polynomial x^16 + x^12 + x^5 + 1, highest
   bit first, from all ones. Port 0 has the number of bytes and then the bytes.
   The register goes out at port 1 behind each byte, and main returns it. */

unsigned crc_byte(unsigned crc, unsigned byte)
{
    int bit;

    crc ^= (byte & 0xff) << 8;
    for (bit = 0; bit < 8; bit++) {
        if (crc & 0x8000)
            crc = (crc << 1) ^ 0x1021;
        else
            crc <<= 1;
    }
    return crc;
}

int main(void)
{
    unsigned crc = 0xffff;
    unsigned left = __in(0);

    while (left-- > 0) {
        crc = crc_byte(crc, __in(0));
        __out(1, crc);
    }
    return crc;
}
