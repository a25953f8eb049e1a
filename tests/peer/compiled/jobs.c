/* Jobs with loops and calls, for the comparison of compiled functions. Each loop goes to a constant, and stops before where the data say so. */

typedef unsigned char u8;
typedef unsigned int u32;

#define OUTPUT (*(volatile u32 *)0xffff0000u)
#define CALLED __attribute__((noinline)) static
#define MOST 32

u32 kept[MOST];
short halves[MOST];
u8 bytes[64];
struct __attribute__((packed)) record { u8 tag; u32 word; short half; } records[6];
static const signed char taps[5] = {-3, 7, 12, 7, -3};

CALLED u32 word_of(const u8 *at) { return (u32)at[0] << 24 | (u32)at[1] << 16 | (u32)at[2] << 8 | at[3]; }
CALLED int limited(int x, int low, int high) { return x < low ? low : x > high ? high : x; }

/* a checksum, bit by bit */
void job_crc(const u8 *input, int length)
{
    u32 sum = 0xffffffffu;
    for (int i = 0; i < MOST; i++) {
        if (i >= length)
            break;
        sum ^= input[i];
        for (int k = 0; k < 8; k++)
            sum = sum & 1 ? sum >> 1 ^ 0xedb88320u : sum >> 1;
    }
    OUTPUT = ~sum;
}

/* sorting by insertion */
void job_sort(const u8 *input, int length)
{
    int count = limited(length / 2, 0, 12);
    for (int i = 0; i < 12; i++) {
        if (i >= count)
            break;
        int value = (short)(input[2 * i] << 8 | input[2 * i + 1]), at = i;
        for (int k = 0; k < 12; k++) {
            if (at <= 0 || halves[at - 1] <= value)
                break;
            halves[at] = halves[at - 1];
            at--;
        }
        halves[at] = (short)value;
    }
    OUTPUT = (u32)halves[0] << 16 | (halves[11] & 0xffff);
}

/* a product of two matrices */
void job_matrix(const u8 *input, int length)
{
    for (int i = 0; i < 4; i++)
        for (int j = 0; j < 4; j++) {
            u32 sum = 0;
            for (int k = 0; k < 4; k++)
                sum += (u32)input[4 * i + k] * input[4 * k + j];
            kept[4 * i + j] = sum + (u32)length;
        }
    OUTPUT = kept[5];
}

/* a filter */
void job_filter(const u8 *input, int length)
{
    int greatest = 0;
    for (int i = 0; i < 28; i++) {
        if (i + 5 > length)
            break;
        int sum = 0;
        for (int k = 0; k < 5; k++)
            sum += taps[k] * (signed char)input[i + k];
        halves[i] = (short)limited(sum >> 4, -100, 100);
        if (halves[i] > greatest)
            greatest = halves[i];
    }
    OUTPUT = (u32)greatest;
}

/* a search in halves */
void job_search(const u8 *input, int length)
{
    int found = 0;
    for (int n = 0; n < 4; n++) {
        u32 wanted = word_of(input + 4 * n) & 0x3ff;
        u32 low = 0, high = 64;
        for (int k = 0; k < 7; k++) {
            if (low >= high)
                break;
            u32 middle = (low + high) / 2;
            if (middle * middle / 3 < wanted)
                low = middle + 1;
            else
                high = middle;
        }
        kept[n] = low;
        found += low < 64;
    }
    OUTPUT = (u32)(found + length);
}

/* the greatest common divisor, by remainders */
CALLED u32 divisor(u32 a, u32 b)
{
    for (int k = 0; k < 48; k++) {
        if (b == 0)
            break;
        u32 rest = a % b;
        a = b;
        b = rest;
    }
    return a;
}

void job_divisor(const u8 *input, int length)
{
    u32 all = (u32)length;
    for (int i = 0; i < 6; i++) {
        kept[i] = divisor(word_of(input + 8 * i) >> 7, word_of(input + 8 * i + 4) >> 9);
        all += kept[i];
    }
    OUTPUT = all;
}

/* a number as text */
void job_digits(const u8 *input, int length)
{
    int number = (int)word_of(input), negative = number < 0;
    u32 rest = negative ? 0u - (u32)number : (u32)number;
    int at = 20;
    for (int k = 0; k < 10; k++) {
        bytes[--at] = (u8)('0' + rest % 10);
        rest /= 10;
        if (rest == 0)
            break;
    }
    if (negative)
        bytes[--at] = '-';
    OUTPUT = (u32)at << 8 | bytes[at];
    OUTPUT = (u32)length;
}

/* a machine of states, over words in the input */
CALLED int next_state(int state, int letter)
{
    if (letter == ' ' || letter == 0)
        return 0;
    if (state == 0)
        return letter >= '0' && letter <= '9' ? 1 : letter == '-' ? 2 : 3;
    if (letter >= '0' && letter <= '9')
        return state == 3 ? 3 : 1;
    return 3;
}

void job_states(const u8 *input, int length)
{
    int state = 0, numbers = 0, faults = 0;
    for (int i = 0; i < 48; i++) {
        if (i >= length)
            break;
        int next = next_state(state, input[i]);
        numbers += state == 1 && next == 0;
        faults += next == 3 && state != 3;
        state = next;
    }
    OUTPUT = (u32)(numbers << 8 | faults);
}

/* sums and products of 64 bits */
void job_products(const u8 *input, int length)
{
    long long sum = 0;
    unsigned long long other = 1;
    for (int i = 0; i < 8; i++) {
        int a = (int)word_of(input + 4 * i);
        sum += (long long)a * (i - 3);
        other = other * 3 + (u32)a;
        if (i > length)
            sum -= 5;
    }
    kept[0] = (u32)sum;
    kept[1] = (u32)(sum >> 32);
    kept[2] = (u32)other;
    kept[3] = (u32)(other >> 32);
    OUTPUT = kept[0] ^ kept[3];
}

/* bits and uneven records */
void job_records(const u8 *input, int length)
{
    u32 all = 0;
    for (int i = 0; i < 6; i++) {
        struct record *r = &records[i];
        r->tag = (u8)(i + length);
        r->word += word_of(input + 3 * i);
        r->half = (short)(r->half * 5 + __builtin_clz(r->word | 1));
        for (int k = 0; k < 32; k += 4)
            if (r->word >> k & 1)
                all += (u32)r->half + r->tag;
    }
    OUTPUT = all;
}

/* a controller with a state, three of them side by side */
int level[3], sums[3];

/* It calls nothing: a function that calls another one saves the counters of the loops around it, which the program takes for writes. */
CALLED int control(int n, int wanted, int reading)
{
    int error = wanted - level[n], sum = sums[n] + error;
    level[n] += (reading - level[n]) >> 2;
    sum = sum < -20000 ? -20000 : sum > 20000 ? 20000 : sum;
    sums[n] = sum;
    return (error * 19661 + sum * 1311) >> 16;
}

void job_control(const u8 *input, int length)
{
    for (int i = 0; i < 5; i++)
        for (int n = 0; n < 3; n++)
            kept[n] = (u32)control(n, 1000 * n, input[3 * i + n] * 16 - length);
    OUTPUT = kept[0] << 20 | (kept[1] & 0x3ff) << 10 | (kept[2] & 0x3ff);
}

/* how often each letter stands there */
void job_counts(const u8 *input, int length)
{
    for (int i = 0; i < 16; i++)
        kept[i] = 0;
    for (int i = 0; i < 48; i++) {
        if (i >= length)
            break;
        kept[input[i] & 15]++;
    }
    int most = 0;
    for (int i = 1; i < 16; i++)
        if (kept[i] > kept[most])
            most = i;
    OUTPUT = (u32)most << 8 | kept[most];
}
