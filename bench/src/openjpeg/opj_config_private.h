/* What CMake would write on Linux with the GNU C library. */
#define OPJ_HAVE_INTTYPES_H 1
#define OPJ_PACKAGE_VERSION "as it was found"
#define OPJ_HAVE_FSEEKO 1
#define OPJ_HAVE_MALLOC_H
#define OPJ_HAVE_ALIGNED_ALLOC
#define OPJ_HAVE_MEMALIGN
#define OPJ_HAVE_POSIX_MEMALIGN
#define _POSIX_C_SOURCE 200112L
