// Asserts what does not hold.
#include <assert.h>
#include <stdio.h>

int main(void)
{
    int sum = 2 + 2;
    assert(sum == 4);
    printf("the first holds\n");
    assert(sum == 5);
    printf("the second holds\n");
    return 0;
}
