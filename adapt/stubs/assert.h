#undef assert
#ifdef NDEBUG
#define assert(x) ((void)0)
#else
#define assert(x) adapt_assert(x)
#endif
