/* Variables and functions whose names are those of registers, of every kind of storage. */
int a1 = 5, t0[4] = {1, 2, 3, 4}, x31;
static unsigned fp = 7, s11;
static short s1[3] = {-1, 2, -3};
const int ra[2] = {11, 13};
const char *const tp = "a name that is none";
static int *zero = &a1;
int gp;

static int sp(int x0)
{
    fp += (unsigned)x0;
    t0[x0 & 3] += s1[x0 % 3];
    return x0 > 0 ? sp(x0 - 1) + ra[x0 & 1] : *zero;
}

int a0(int t1)
{
    static int t6;
    t6 += t1;
    gp = t6 ^ (int)fp;
    s11 -= (unsigned)gp;
    return gp;
}

int (*s2[])(int) = {sp, a0};

int main(void)
{
    int sum = 0;
    for (x31 = 0; x31 < 9; x31++)
        sum += s2[x31 & 1](x31) + tp[x31] + (int)s11;
    return sum & 0xff;
}
