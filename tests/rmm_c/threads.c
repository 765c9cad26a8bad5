/* Two handles in two threads have nothing in common: each answers as one does alone. The last line is
 * `two threads answer as one`. */
#include "life.h"

#include <pthread.h>

enum { TURNS = 200 };

struct thread {
    uint8_t value;
    bool is_same;
};

static void *many(void *given)
{
    struct thread *it = given;
    rmm_handle handle = RMM_CLOSED;
    it->is_same = opened(&handle, PAGE_COUNT) == RMM_OPENED;
    for (int turn = 0; turn < TURNS && it->is_same; turn++)
        it->is_same = live(&handle, it->value, it->value);
    rmm_close(&handle);
    return NULL;
}

int main(void)
{
    struct thread given[2] = {{7, false}, {200, false}};
    pthread_t threads[2];
    for (int k = 0; k < 2; k++)
        if (pthread_create(&threads[k], NULL, many, &given[k]) != 0)
            return 1;
    for (int k = 0; k < 2; k++)
        pthread_join(threads[k], NULL);
    if (!given[0].is_same || !given[1].is_same)
        return 1;
    printf("two threads answer as one\n");
    return 0;
}
