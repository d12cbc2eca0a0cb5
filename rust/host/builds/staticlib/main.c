/* Calls the kernel that is a static library. */
#include <stdint.h>
#include <stdio.h>
#include <string.h>

int64_t kernel_pass(uint8_t *bytes, size_t len);

int main(void) {
    uint8_t bytes[] = "eleven bytes";
    int64_t count = kernel_pass(bytes, sizeof bytes);
    if (count != (int64_t)sizeof bytes || memcmp(bytes, "eleven bytes", sizeof bytes) != 0) {
        printf("the kernel answered %lld\n", (long long)count);
        return 1;
    }
    return 0;
}
