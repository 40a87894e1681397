/* The kit's compiler comes without headers: what the examples need of this one. */
typedef __UINT8_TYPE__ uint8_t;
typedef __UINT16_TYPE__ uint16_t;
typedef __UINT32_TYPE__ uint32_t;
#define UINT32_MAX 4294967295u
