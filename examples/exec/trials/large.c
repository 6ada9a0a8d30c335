// Has more data than fits below the stack, so that it must not link.
static char data[0xc0000];

int main(void)
{
    return ((volatile char *)data)[0];
}
