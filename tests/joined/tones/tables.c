/* Cycles of 2, 3, 5 and 7 in 32 samples: twice the cosine in 64ths, and the step of a phase of 16 bits. */
int coefficients[4] = {118, 106, 71, 25};
unsigned rates[4] = {4096, 6144, 10240, 14336};
static int first[17] = {0, 1, 1, 2, 3, 3, 4, 4, 5, 5, 6, 6, 6, 6, 7, 7, 7};

int wave(unsigned phase)
{
    unsigned at;

    at = phase >> 10 & 15;
    switch (phase >> 14) {
    case 0: return first[at];
    case 1: return first[16 - at];
    case 2: return -first[at];
    }
    return -first[16 - at];
}
