/* Memory that is shared between threads. */
int taken(int *lock) {
    return __atomic_exchange_n(lock, 1, __ATOMIC_ACQUIRE);
}
