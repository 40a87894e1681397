/* The kit's compiler comes without headers: what the examples need of this one. */
typedef __SIZE_TYPE__ size_t;
