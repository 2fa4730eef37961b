/* Made from input.c for 1 ranks, by
   adapt/adapt.py input.c --ranks 1 */
int main(void)
{
    for (int i = 0; i < 7; i++) {
        int w1 = i;
        int w2 = 0;
        int go_on_1 = 0;
        do {
            if (w2 || w1 != 1 && w1 != 2 && w1 != 3 && w1 != 5) {
                w2 = 1;
                printf("other ");
            }
            if (w2 || w1 == 1) {
                w2 = 1;
                printf("one ");
                break;
            }
            if (w2 || w1 == 2) {
                w2 = 1;
            }
            if (w2 || w1 == 3) {
                w2 = 1;
                if (i == 3) {
                    go_on_1 = 1;
                    break;
                }
                printf("two ");
            }
            if (w2 || w1 == 5) {
                w2 = 1;
                for (int j = 0; j < 3; j++) {
                    if (j == 1) {
                        continue;
                    }
                    printf("%d ", j);
                }
            }
        } while (0);
        if (go_on_1) {
            continue;
        }
        printf("| ");
    }
    printf("\n");
    return 0;
}
