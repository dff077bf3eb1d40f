/* Memory that others look at. */
volatile int status;

int wait(void) {
    while (!status) {
    }
    return status;
}
