#include <stdio.h>
int main(void)
{
    for (int i = 0; i < 7; i++) {
        switch (i) {
        default:
            printf("other ");
        case 1:
            printf("one ");
            break;
        case 2:
        case 3:
            if (i == 3)
                continue;
            printf("two ");
        case 5:
            for (int j = 0; j < 3; j++) {
                if (j == 1)
                    continue;
                printf("%d ", j);
            }
        }
        printf("| ");
    }
    printf("\n");
    return 0;
}
