#include "refusal.h"

#include <stdio.h>

void print_refusal(struct refusal refusal)
{
    printf("refused %d %zu\n", (int)refusal.number, refusal.place);
}
