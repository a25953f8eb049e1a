/*
 * One job of a level controller: a sample of the sensor comes in, a command for the valve goes out.
 *
 * The function compiles to straight code: no loop, no branch and no call. For a choice between two values that are there, gcc takes
 * a conditional move. A choice whether to compute at all would become a branch, so what depends on `valid` is masked.
 */

/* The input buffer. Each job has one sample, or none of it: then all its fields are zero. */
struct sample {
    short reading;                                   /* of the sensor, as it comes */
    short zero;                                      /* what the sensor reads at level 0 */
    short wanted;                                    /* the level that is asked for, in tenths of a millimetre */
    unsigned char valid;                             /* its lowest bit 0: the reading is no good */
    unsigned char tag;                               /* handed on with the command */
    unsigned char gain;                              /* of the sensor, in 1/64 */
    unsigned int time __attribute__((packed));       /* of the sample, in microseconds; it stands at an odd address */
};

/* What one job leaves for the next, in the image's data. */
struct memory {
    int level;          /* filtered, in tenths of a millimetre */
    int sum;            /* of errors, held within its limits */
    unsigned int time;  /* of the last sample */
};

/* What can be read out after a job, in the task's ram. */
struct record {
    unsigned int elapsed;                            /* since the last sample, in microseconds */
    short error;
    unsigned char bits;                              /* how many binary digits the error has */
    unsigned int command __attribute__((packed));    /* it stands at an odd address */
};

#define PORT (*(volatile unsigned int *)0xffff0000u)
#define RECORD ((struct record *)0x10000100)
#define MOST_SUM 20000
#define MOST_DRIVE 2047
#define PROPORTIONAL 19661  /* 0.3, in 1/65536 */
#define INTEGRAL 1311       /* 0.02, in 1/65536 */

struct memory memory = {1000, 0, 0};

static int within(int x, int most)
{
    x = x < most ? x : most;
    return x > -most ? x : -most;
}

void job(const struct sample *sample)
{
    int valid = sample->valid & 1;
    int level = ((sample->reading - sample->zero) * sample->gain) >> 6;
    int kept = memory.level + ((level - memory.level) / 5 & -valid);
    int error = sample->wanted - kept;
    int sum = within(memory.sum + error, MOST_SUM);
    int drive = (int)(((long long)error * PROPORTIONAL + (long long)sum * INTEGRAL) >> 16);
    unsigned int size = (error ^ error >> 31) - (error >> 31);
    unsigned int command = (unsigned int)sample->tag << 24 | (unsigned int)(within(drive, MOST_DRIVE) & 0xfff) << 4 | (valid ? 1 : 8);

    RECORD->elapsed = sample->time - memory.time;
    RECORD->error = (short)error;
    RECORD->bits = (unsigned char)(31 - __builtin_clz(size << 1 | 1));
    RECORD->command = command;
    memory.level = kept;
    memory.sum = sum;
    memory.time = sample->time;
    PORT = command;
}
