#include "report.h"

#include <stdio.h>

static int passed, failed;

void check(int right, const char *name)
{
    if (right)
        passed++;
    else
        failed++;
    if (!right)
        printf("FAILED: %s\n", name);
}

int report(void)
{
    printf("%d passed, %d failed\n", passed, failed);
    return failed != 0 || passed == 0;
}
