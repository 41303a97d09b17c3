/* A level meter with a column of eight lights, 6 decibels apart. Samples come
   in at port 0. After every four of them the lights go out at port 1, the
   lowest light in the lowest bit. Without HOLD there is no light of a peak, and
   without CLIP no count of the columns that are too loud, at port 2. */

#define HOLD 2                  /* columns for which the peak's light stays */
#define CLIP 32000              /* the lowest level that is too loud */

#ifdef CLIP
int clipped;                    /* columns that were too loud */
#endif

#define SAMPLE __in(0)
#define LIGHTS 1
#define CLIPPED 2

#define TOP 8                   /* lights */
#define COLUMN 4                /* samples of a column */
#define LEAST 128               /* the level at which the first light goes on */
#define UP_TO ((1 << height) - 1)

int magnitude(int x)
{
    if (x == -32767 - 1)
        return 32767;           /* the least int has no negative */
    return x < 0 ? -x : x;
}

/* the light up to which a level reaches, from 0 for none to TOP */
int reached(int level)
{
    int light;

    for (light = 0; light < TOP && level >= LEAST; light++)
        level >>= 1;
    return light;
}

#ifdef HOLD
int peak;                       /* the light of the last peak */
int left;                       /* columns for which it stays there */

/* the bit of the light of the last peak, which falls when it has stayed */
int held(int height)
{
    if (height >= peak) {
        peak = height;
        left = HOLD;
    } else if (left > 0) {
        left--;
    } else {
        peak--;
    }
    return peak > 0 ? 1 << (peak - 1) : 0;
}
#endif

int main(void)
{
    int level, height, i, x;

    for (;;) {
        level = 0;
        for (i = 0; i < COLUMN; i++) {
            x = magnitude(SAMPLE);
            if (x > level)
                level = x;
        }
        height = reached(level);
#ifdef HOLD
        __out(LIGHTS, UP_TO | held(height));
#else
        __out(LIGHTS, UP_TO);
#endif
#ifdef CLIP
        if (level >= CLIP)
            __out(CLIPPED, ++clipped);
#endif
    }
}
