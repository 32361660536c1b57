#include <stdio.h>
extern void dhry(int runs);
extern int Int_Glob, Bool_Glob, Arr_1_Glob[50], Arr_2_Glob[50][50];
extern char Ch_1_Glob, Ch_2_Glob;
int main(void) {
    dhry(300000);
    printf("%d %d %c %c %d %d\n", Int_Glob, Bool_Glob, Ch_1_Glob, Ch_2_Glob, Arr_1_Glob[8], Arr_2_Glob[8][7]);
    return 0;
}
