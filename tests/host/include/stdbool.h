/* Stands in for C's own header where the kit's compiler has none. */
#define bool _Bool
#define true 1
#define false 0
