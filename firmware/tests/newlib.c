/* What newlib lacks for the C tests on a board without processes: tests/long.c asks for none in its short form. */
int fork(void) { return -1; }
int waitpid(int process, int *status, int options) {
    (void)process, (void)status, (void)options;
    return -1;
}
