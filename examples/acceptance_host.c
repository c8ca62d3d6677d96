/*
 * Runs the acceptance test on a computer: the line's function is puts.
 */
#include <stdio.h>

#include "acceptance.h"

void acceptance_show(const char *line)
{
    puts(line);
}

int main(void)
{
    return acceptance();
}
