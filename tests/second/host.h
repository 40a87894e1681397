/* The kit's compiler comes without headers: what the harness needs of the host. size_t comes with salenduro.h before it. */
long read(int, void *, size_t);
long write(int, const void *, size_t);
void *memcpy(void *, const void *, size_t);
int strcmp(const char *, const char *);
