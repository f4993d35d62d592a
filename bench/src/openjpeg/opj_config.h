/* What CMake would write: the version is not asked for here. */
#define OPJ_HAVE_STDINT_H 1
#define OPJ_VERSION_MAJOR 2
#define OPJ_VERSION_MINOR 0
#define OPJ_VERSION_BUILD 0
