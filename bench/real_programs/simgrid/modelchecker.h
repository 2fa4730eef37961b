#define MC_assert(x) adapt_assert(x)
