/*
 * One job of a monitor: it smooths the readings of its input, keeps them, and puts out their mean, their spread and how many of them lay
 * beyond the limit.
 *
 * Each loop has a constant as its greatest number of rounds, and stops before it where the input is shorter: the program has to prove a
 * count for each loop, and no fact says that a register is below another one. The parts of a job are functions, so that there is a place
 * between them which every job comes to.
 */

#define READINGS 24 /* of a job, at most */
#define HALF 12
#define TAPS 4
#define LIMIT 2000

#define OUTPUT (*(volatile int *)0xffff0000u)
#define PART __attribute__((noinline)) static

static const unsigned char weights[TAPS] = {2, 3, 2, 1};

/* The smoothed readings, and what is known of all of them. They stay in memory from job to job. */
short smoothed[READINGS];
int least, most, beyond;

/* A reading of two bytes, the more significant one first, held within the limit. */
PART int reading(const unsigned char *at)
{
    int value = (short)(at[0] << 8 | at[1]);
    if (value > LIMIT) {
        beyond++;
        return LIMIT;
    }
    if (value < -LIMIT) {
        beyond++;
        return -LIMIT;
    }
    return value;
}

/* Smooths half a buffer, from one reading on. */
PART void smooth(const unsigned char *input, int from, int count)
{
    for (int i = 0; i < HALF; i++) {
        int at = from + i;
        if (at >= count)
            break;
        int value = 0;
        for (int k = 0; k < TAPS; k++) {
            if (k > at)
                break;
            value += weights[k] * reading(input + 2 * (at - k));
        }
        smoothed[at] = (short)(value >> 3);
    }
}

PART int sum_of(int count)
{
    int sum = 0;
    for (int i = 0; i < READINGS; i++) {
        if (i >= count)
            break;
        int value = smoothed[i];
        sum += value;
        if (value < least)
            least = value;
        if (value > most)
            most = value;
    }
    return sum;
}

void job(const unsigned char *input, int length)
{
    int count = length >> 1;

    beyond = 0;
    least = LIMIT;
    most = -LIMIT;
    smooth(input, 0, count);
    smooth(input, HALF, count);
    int sum = sum_of(count);
    if (count > 0) {
        OUTPUT = sum / count;
        OUTPUT = most - least;
    }
    OUTPUT = beyond;
}
