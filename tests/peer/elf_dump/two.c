/* The second file: the names `twice_there` and `helper` stand in both. */
static int twice_there = 19;
static char buffer[1000];
int aliased = 23;
extern int another_name __attribute__((alias("aliased")));
int common_word;

static __attribute__((noinline)) int helper(int x)
{
    buffer[x & 511] = (char)x;
    return x - twice_there;
}

__attribute__((weak)) int other(int x)
{
    return helper(x) + common_word + buffer[3];
}
