// Dates by the C library, from numbers of seconds since 1970, and a sum of a text by each of three
// hashes.
#include <stdint.h>
#include <stdio.h>
#include <string.h>
#include <time.h>

static void show(time_t seconds)
{
    char text[64];
    struct tm date;
    gmtime_r(&seconds, &date);
    strftime(text, sizeof text, "%Y-%m-%d %H:%M:%S, %A, day %j", &date);
    printf("%lld: %s\n", (long long)seconds, text);
}

static uint32_t crc(const unsigned char *bytes, size_t count)
{
    uint32_t sum = 0xffffffff;
    for (size_t i = 0; i < count; i++) {
        sum ^= bytes[i];
        for (int bit = 0; bit < 8; bit++) {
            sum = sum % 2 ? sum / 2 ^ 0xedb88320 : sum / 2;
        }
    }
    return ~sum;
}

static uint64_t fnv(const unsigned char *bytes, size_t count)
{
    uint64_t sum = UINT64_C(0xcbf29ce484222325);
    for (size_t i = 0; i < count; i++) {
        sum = (sum ^ bytes[i]) * UINT64_C(0x100000001b3);
    }
    return sum;
}

static uint32_t adler(const unsigned char *bytes, size_t count)
{
    uint32_t a = 1, b = 0;
    for (size_t i = 0; i < count; i++) {
        a = (a + bytes[i]) % 65521;
        b = (b + a) % 65521;
    }
    return b << 16 | a;
}

int main(void)
{
    static const time_t times[] = {0, 951782400, 1e9, 1764028800, 2147483647, 2147483648, 4102444799};
    for (size_t i = 0; i < sizeof times / sizeof *times; i++) {
        show(times[i]);
    }
    struct tm date = {.tm_year = 126, .tm_mon = 10, .tm_mday = 31, .tm_hour = 25};
    printf("%lld\n", (long long)mktime(&date));
    printf("%d-%d, day %d of the week\n", date.tm_mon + 1, date.tm_mday, date.tm_wday);
    printf("%.0f\n", difftime(1764028800, 951782400));
    const char *text = "The quick brown fox jumps over the lazy dog";
    const unsigned char *bytes = (const unsigned char *)text;
    printf("%08x %016llx %08x\n", (unsigned)crc(bytes, strlen(text)), (unsigned long long)fnv(bytes, strlen(text)),
           (unsigned)adler(bytes, strlen(text)));
    return 0;
}
