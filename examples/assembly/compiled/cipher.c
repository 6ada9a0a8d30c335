typedef unsigned word;
static word key[4] = {0x01234567, 0x89abcdef, 0xfedcba98, 0x76543210};

void encrypt(word *v) {
    word a = v[0], b = v[1], sum = 0;
    for (int i = 0; i < 32; i++) {
        sum += 0x9e3779b9;
        a += ((b << 4) + key[0]) ^ (b + sum) ^ ((b >> 5) + key[1]);
        b += ((a << 4) + key[2]) ^ (a + sum) ^ ((a >> 5) + key[3]);
    }
    v[0] = a;
    v[1] = b;
}

void decrypt(word *v) {
    word a = v[0], b = v[1], sum = 0xc6ef3720;
    for (int i = 0; i < 32; i++) {
        b -= ((a << 4) + key[2]) ^ (a + sum) ^ ((a >> 5) + key[3]);
        a -= ((b << 4) + key[0]) ^ (b + sum) ^ ((b >> 5) + key[1]);
        sum -= 0x9e3779b9;
    }
    v[0] = a;
    v[1] = b;
}

int main(void) {
    word text[2] = {'H' << 24 | 'i', 42};
    encrypt(text);
    decrypt(text);
    return text[1] == 42;
}
