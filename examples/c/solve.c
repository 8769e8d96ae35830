/* Reads a job from standard input and prints its text: what the program `strips` does, from C. */
#include <stdio.h>

#include "strips.h"

static uint8_t job[STRIPS_INPUT];
static uint8_t text[STRIPS_OUTPUT];

int main(void)
{
    size_t length = fread(job, 1, sizeof job, stdin);
    size_t printed = strips_solve(job, length, text, sizeof text);
    return fwrite(text, 1, printed, stdout) == printed ? 0 : 1;
}
