/* For the kit's clang, which comes without headers: what the tests use. */
int printf(const char *format, ...);
