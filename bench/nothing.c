/* A program that only starts and ends: what of a program's time is start-up. */
int main(void) { return 0; }
