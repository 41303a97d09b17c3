extern int least, most, wanted;
static int level = 16;

static int limited(int x)
{
    return x < least ? least : x > most ? most : x;
}

/* a gain in sixteenths that moves towards the level that is wanted */
int gain(int detected)
{
    if (detected < wanted - 64)
        level = limited(level + 1);
    else if (detected > wanted + 64)
        level = limited(level - 1 - (level >> 3));
    return level;
}
