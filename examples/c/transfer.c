/* Two tellers move money between two accounts. Each locks both rows, that of its own account first, and notes what it was asked
   for. Teller 2 comes a moment later, so the run goes well, and its transfer is above the limit, so it moves nothing. */
#include "syncp_trace.h"
#include <unistd.h>

struct row { pthread_mutex_t mutex; const char *name, *limit_name, *balance_name; long limit, balance; };

static struct row rows[2] = {
    {PTHREAD_MUTEX_INITIALIZER, "row.1", "limit.1", "balance.1", 100, 100},
    {PTHREAD_MUTEX_INITIALIZER, "row.2", "limit.2", "balance.2", 100, 100},
};
static long last_transfer;

static void transfer(struct row *from, struct row *to, long amount) {
    long limit;
    syncp_lock(&from->mutex, from->name);
    syncp_lock(&to->mutex, to->name);
    SYNCP_READ(from->limit_name, limit = from->limit);
    if (amount <= limit) {
        SYNCP_WRITE(from->balance_name, from->balance -= amount);
        SYNCP_WRITE(to->balance_name, to->balance += amount);
    }
    syncp_unlock(&to->mutex, to->name);
    syncp_unlock(&from->mutex, from->name);
}

static void *teller_1(void *unused) {
    SYNCP_WRITE("last_transfer", last_transfer = 30);
    transfer(&rows[0], &rows[1], 30);
    return unused;
}

static void *teller_2(void *unused) {
    usleep(200000);
    transfer(&rows[1], &rows[0], 500);
    SYNCP_WRITE("last_transfer", last_transfer = 500);
    return unused;
}

int main(void) {
    pthread_t tellers[2];
    syncp_start(&tellers[0], "teller-1", teller_1, 0);
    syncp_start(&tellers[1], "teller-2", teller_2, 0);
    syncp_join(tellers[0], "teller-1");
    syncp_join(tellers[1], "teller-2");
    return 0;
}
