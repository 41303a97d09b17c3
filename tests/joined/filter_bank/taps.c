int taps[8] = {1, 3, 5, 7, 7, 5, 3, 1};
int shift = 5;
