// The platform's sqrt of each bit pattern of standard input; patterns and answers are 8 bytes, as the machine holds them.
#include <math.h>
#include <stdio.h>

int main(void) {
    double x;
    while (fread(&x, sizeof x, 1, stdin) == 1) {
        x = sqrt(x);
        fwrite(&x, sizeof x, 1, stdout);
    }
    return ferror(stdin) || fflush(stdout);
}
