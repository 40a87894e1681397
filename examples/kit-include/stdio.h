/* The kit's compiler comes without headers: what the examples need of this one. */
int printf(const char *, ...);
