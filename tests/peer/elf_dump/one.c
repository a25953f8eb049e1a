/* Several sections, static names and a name that two files share. */
struct pair { int first, second; };

const int limits[4] = {1, 2, 3, 5};
struct pair kept = {7, 11};
int cleared[300];
static int twice_there = 13;
static short hidden[5] = {1, 2};
__attribute__((section(".fast"))) int fast_word = 17;
__attribute__((section(".text.cold"), noinline)) int cold(int x) { return x * limits[x & 3]; }

int other(int x);

static __attribute__((noinline)) int helper(int x)
{
    hidden[x & 3]++;
    return x + twice_there + hidden[1];
}

void start(void)
{
    cleared[0] = helper(kept.first) + cold(fast_word) + other(kept.second);
    for (;;)
        ;
}
