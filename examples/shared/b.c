int hello = 5;
int world = 8;
int both;
