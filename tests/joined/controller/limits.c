int low_limit = 180;
int high_limit = 220;
int alarm_limits[2] = {50, 400};
