/* Code for the comparison of listings: it is compiled and listed, and never run. Each function wants some instructions of its own. */

typedef unsigned int u32;
typedef long long i64;
typedef unsigned long long u64;

struct __attribute__((packed)) uneven { char mark; int word; short half; unsigned char byte; i64 wide; };

volatile u32 port, other;
int table[64];
struct uneven kept;

int sums(int a, int b, int c) { return a + b * 7 - (c ^ a) + (a & 0xff00) - (b | 0x7fff) + ~(a | c) + (a << b) + (a >> c) + (int)((u32)b >> (c & 31)) + (a >> 5) + (b << 9) + (int)((u32)c >> 17); }
int signs(signed char a, short b, unsigned char c, unsigned short d) { return a * b + c * d - (signed char)(b + 1) + (short)(a << 3); }
u32 quotients(u32 a, u32 b, int c, int d) { return a / b + a % b + c / d + c % d + a / 10 + c / -7 + a % 1000; }
i64 wide(i64 a, i64 b, int c, u32 d) { return a + b * c - (a << d) + (b >> 3) + (i64)c * c + (i64)((u64)d * d) + (a < b); }
i64 products(const int *x, const int *y, int n) { i64 sum = 0; for (int k = 0; k < n; k++) sum += (i64)x[k] * y[k]; return sum; }
u64 unsigned_products(const u32 *x, const u32 *y, int n) { u64 sum = 5; for (int k = 0; k < n; k++) sum -= (u64)x[k] * y[k]; return sum; }
int choices(int a, int b) { return (a ? b : 3) + (b < 0 ? a : b) + (a <= 0 ? 7 : b) + (a > 0 ? 1 : -2) + (b >= 0 ? a : 0) + (a == b ? 9 : a) + (a < 100) + ((u32)b < 77) + (a != 0); }
int counts(u32 a) { return __builtin_clz(a) + __builtin_clz(~a) + __builtin_ctz(a) + __builtin_popcount(a); }
void uneven(struct uneven *to, const struct uneven *from) { to->word = from->word + 1; to->half = from->half; to->byte = from->byte; to->wide = from->wide; to->mark = from->mark; }
void fences(void) { port = 1; __sync_synchronize(); other = port; __builtin_prefetch(table); __builtin_prefetch(table + 40, 1); }
void stops(int a) { if (a == 5) __builtin_trap(); if (a == 6) asm volatile("break 3"); if (a == 7) asm volatile("break"); if (a == 8) asm volatile("syscall"); if (a == 9) asm volatile("syscall 77"); }
int many(int a) { switch (a) { case 0: return 3; case 1: return 17; case 2: return 5; case 3: return 44; case 4: return -9; case 5: return 1000; case 6: return table[3]; case 7: return 12; case 8: return 0; } return a; }
int through(int (*f)(int), int a) { return f(a) + f(a + 1); }
int tail(int (*f)(int), int a) { return f(a); }
int recursive(int a) { return a < 2 ? a : recursive(a - 1) + recursive(a - 2); }
void copies(char *to, const char *from, u32 n) { while (n--) *to++ = *from++; }
int search(const int *x, int n, int wanted) { for (int k = n - 1; k >= 0; k--) if (x[k] == wanted) return k; return -1; }
u32 mixed(u32 a) { for (int k = 0; k < 16; k++) { a ^= a << 13; a ^= a >> 17; a ^= a << 5; a = a << 7 | a >> 25; table[a & 63] += (int)a; } return a; }
u32 hash(const unsigned char *text) { u32 h = 2166136261u; while (*text) h = (h ^ *text++) * 16777619u; return h; }
int sorted(int *x, int n) { int moves = 0; for (int i = 1; i < n; i++) for (int k = i; k > 0 && x[k - 1] > x[k]; k--) { int y = x[k]; x[k] = x[k - 1]; x[k - 1] = y; moves++; } return moves; }

/* what the compiler doesn't make by itself */
void by_hand(int a, int b)
{
    asm volatile(".set push\n.set noreorder\n.set noat\n"
        "add %0,%1,%0\n addi %0,%1,-5\n sub %0,%0,%1\n madd %0,%1\n maddu %0,%1\n msub %0,%1\n msubu %0,%1\n mthi %0\n mtlo %1\n mfhi %0\n mflo %1\n clo %0,%1\n movz %0,%1,%0\n movn %0,%1,%0\n"
        "tge %0,%1\n tgeu %0,%1,9\n tlt %0,%1\n tltu %0,%1,1023\n teq %0,%1\n tne %0,%1,3\n bltzal %0,1f\n nop\n bgezal %1,1f\n nop\n bal 1f\n nop\n jalr $2,%0\n nop\n jalr %1\n nop\n"
        "1: sync\n sync 16\n pref 3,40(%0)\n pref 31,-32768(%1)\n lwl %0,0(%1)\n lwr %0,3(%1)\n swl %0,-1(%1)\n swr %0,2(%1)\n sltiu %0,%1,-1\n xori %0,%1,0xffff\n lui %0,0x8000\n b 1b\n nop\n"
        "bgtz $0,1b\n nop\n blez $0,1b\n nop\n bne %0,%0,1b\n nop\n ssnop\n mul %0,%1,%0\n srav %0,%1,%0\n srlv %0,%1,%0\n nor %0,$0,%1\n subu %0,$0,%1\n"
        ".set pop" : : "r"(a), "r"(b) : "$2", "$31", "hi", "lo", "memory");
}

int start(int a) { return through(many, a) + tail(recursive, a) + sums(a, 1, 2); }
