/* The runner as a C program: its status is 0, or 1 where a file or the report failed. */
#include <stdio.h>
#include <unistd.h>

int sinewhopa_files(void);

int main(void)
{
    int status = sinewhopa_files();

    /* Some file systems tell only here that the report was not written. */
    if (status == 0 && close(STDOUT_FILENO) < 0) {
        perror("standard output");
        status = 1;
    }
    return status;
}
