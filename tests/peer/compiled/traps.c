/* More code for the comparison of listings, with words that are no instructions of the stated machine: floating point, and what the compiler makes for a later release. */
double mean(const double *x, int n) { double sum = 0; for (int k = 0; k < n; k++) sum += x[k]; return sum / n; }
float scaled(float a, int b) { return a * b > 1.5f ? a - b : (float)(int)(a + b); }
int fields(unsigned int a) { return (signed char)a + (short)(a >> 3) + (int)(a >> 7 & 0x1f) + (int)(a << 5 | a >> 27) + (int)__builtin_bswap32(a); }
int counter;
int adds(void) { return __sync_fetch_and_add(&counter, 1); }
int start(int a) { return fields((unsigned int)a) + adds() + (int)scaled((float)a, 3); }
