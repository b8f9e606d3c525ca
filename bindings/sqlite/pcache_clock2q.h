/* SQLite's page cache over clock2q. */
#ifndef PCACHE_CLOCK2Q_H
#define PCACHE_CLOCK2Q_H

#ifdef __cplusplus
extern "C" {
#endif

/* Has each connection that is opened from now on use clock2q. Call it before any other function of
 * SQLite. Returns SQLITE_OK, or SQLITE_MISUSE if SQLite is in use already. */
int clock2q_sqlite(void);

/* Reports the bytes that the page caches of all connections hold, and the most that they held. If
 * `resets` isn't 0, the most begins anew with what they hold now. It is what sqlite3_status64
 * reports of SQLite's own cache as SQLITE_STATUS_PAGECACHE_OVERFLOW, but counts tables and indexes too.
 * Any thread may call it while SQLite is in use. Neither pointer is null. */
void clock2q_sqlite_memory(long long *now, long long *most, int resets);

#ifdef __cplusplus
}
#endif

#endif
