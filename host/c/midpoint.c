#include <focus.h>
#include <stdio.h>

int main(void) {
    /* five heads, at most one struck; trusted entries 10 20 30 40 and a null */
    uint8_t entries[20] = {10, 0, 0, 0, 20, 0, 0, 0, 30, 0, 0, 0, 40, 0, 0, 0, 0, 0, 0, 0};
    int32_t position;
    uint8_t refusal = focus_midpoint(5, 1, 1, 0x0f, entries, sizeof entries, &position);
    printf("%u %d\n", refusal, position); /* 0 25 */
    return 0;
}
