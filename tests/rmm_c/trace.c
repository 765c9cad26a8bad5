/* Performs the lines of a trace through the C library, and prints our answer to each, empty if there is none.
 *
 *     trace < TRACE */
#include "rmm_commands.h"

#include <stdio.h>
#include <string.h>

int main(void)
{
    static char line[1 << 17], answer[RMM_ANSWER_SIZE];
    rmm_handle rmm = RMM_CLOSED;
    while (fgets(line, sizeof line, stdin) != NULL) {
        uint64_t count = rmm_line(&rmm, line, strcspn(line, "\n"), answer, sizeof answer);
        if (count != strlen(answer))
            return 1;
        puts(answer);
    }
    rmm_close(&rmm);
    return 0;
}
